//! The names that start a line of the text form.

use crate::message::Elsewhere;

#[derive(Clone, Copy, Debug, PartialEq, Eq)]
pub enum Name {
    Diameter,
    Sides,
    Product,
    Wall,
    Weight,
    Ratio,
    Friction,
    Factor,
    FillingEccentricity,
    OutletEccentricity,
    Floor,
    HopperHeight,
    HopperRun,
    HopperAngle,
    OutletWidth,
    Strakes,
    Depths,
    Headroom,
    Stiffeners,
    Project,
    Customer,
    Place,
    Author,
    Date,
    Revision,
    Note,
}

/// A name, other spellings of it, a line that shows its use, and the library's limits.
struct Row {
    name: Name,
    word: &'static str,
    /// ENV's symbol and common words, then the French ones, as `plain` has them; one letter is taken as it stands.
    others: &'static [&'static str],
    example: &'static str,
    limits: &'static str,
}

const fn row(
    name: Name,
    word: &'static str,
    others: &'static [&'static str],
    example: &'static str,
    limits: &'static str,
) -> Row {
    Row { name, word, others, example, limits }
}

const SIDE: &str = "500 to 50000 mm";
const ECCENTRICITY: &str = "at most a quarter of the diameter or shorter side";

/// In the order of `Name`: the sheet's numbers, then what a text says of the order.
const NAMES: [Row; 26] = [
    row(
        Name::Diameter,
        "diameter",
        &["d", "D", "inside diameter", "diametre", "diametre interieur"],
        "diameter = 5000 mm",
        SIDE,
    ),
    row(
        Name::Sides,
        "sides",
        &["a x b", "cotes"],
        "sides = 4000 x 6000 mm",
        "500 to 50000 mm each",
    ),
    row(
        Name::Product,
        "product",
        &["grain", "produit", "matiere", "matiere ensilee", "cereale"],
        "product = wheat",
        "",
    ),
    row(Name::Wall, "wall", &["paroi", "parois", "mur"], "wall = steel", ""),
    row(
        Name::Weight,
        "weight",
        &[
            "γ",
            "gamma",
            "unit weight",
            "density",
            "poids",
            "poids volumique",
            "masse volumique",
            "bulk density",
            "bulk weight",
        ],
        "weight = 9.0 kN/m3",
        "1000 to 30000 N/m3",
    ),
    row(
        Name::Ratio,
        "ratio",
        &[
            "ks",
            "k s",
            "K",
            "rapport",
            "rapport de pression",
            "rapport de pressions",
            "rapport des pressions",
        ],
        "ratio = 0.55",
        "0.20 to 1.00",
    ),
    row(
        Name::Friction,
        "friction",
        &[
            "μ",
            "µ",
            "mu",
            "wall friction",
            "frottement",
            "frottement sur la paroi",
            "coefficient de frottement",
            "coefficient de frottement sur la paroi",
            "wall friction angle",
            "angle of wall friction",
        ],
        "friction =",
        "0.10 to 1.00",
    ),
    row(
        Name::Factor,
        "factor",
        &[
            "c0",
            "c 0",
            "c₀",
            "co",
            "c o",
            "discharge factor",
            "facteur",
            "coefficient d'amplification",
            "coefficient maximal d'amplification",
            "amplification",
        ],
        "factor =",
        "1.00 to 2.00, or blank for 1.55 (7.4 at 40 degrees)",
    ),
    row(
        Name::FillingEccentricity,
        "filling eccentricity",
        &[
            "e i",
            "ei",
            "eᵢ",
            "excentricite de remplissage",
            "excentricite du remplissage",
            "excentrement de remplissage",
            "inlet eccentricity",
            "eccentricity of filling",
        ],
        "filling eccentricity = 0 mm",
        ECCENTRICITY,
    ),
    row(
        Name::OutletEccentricity,
        "outlet eccentricity",
        &[
            "e o",
            "eo",
            "eₒ",
            "excentricite de vidange",
            "excentricite de la vidange",
            "excentricite de sortie",
            "excentrement de vidange",
            "eccentricity of outlet",
            "e0",
            "e 0",
        ],
        "outlet eccentricity = 0 mm",
        ECCENTRICITY,
    ),
    row(Name::Floor, "floor", &["fond", "plancher"], "floor = flat", ""),
    row(
        Name::HopperHeight,
        "hopper height",
        &["H", "hauteur de tremie", "hauteur de la tremie", "hauteur tremie", "cone height"],
        "hopper height = 3000 mm",
        "at most 25000 mm",
    ),
    row(
        Name::HopperRun,
        "hopper run",
        &[
            "r",
            "deport de tremie",
            "deport de la tremie",
            "projection de tremie",
            "retrait de tremie",
        ],
        "hopper run = 1700 mm",
        "under half the diameter or shorter side",
    ),
    row(
        Name::HopperAngle,
        "hopper angle",
        &[
            "α",
            "alpha",
            "angle de tremie",
            "angle de la tremie",
            "pente de tremie",
            "pente de la tremie",
            "inclinaison de tremie",
            "cone angle",
        ],
        "hopper angle = 45 deg",
        "over 20 and under 90 degrees from the horizontal",
    ),
    row(
        Name::OutletWidth,
        "outlet width",
        &[
            "outlet diameter",
            "largeur d'orifice",
            "largeur de l'orifice",
            "largeur de sortie",
            "largeur de vidange",
            "diametre d'orifice",
            "diametre de l'orifice",
            "diametre de sortie",
            "diametre de vidange",
        ],
        "outlet width = 600 mm",
        "over 0 and under the diameter or shorter side",
    ),
    row(
        Name::Strakes,
        "strakes",
        &["rings", "courses", "viroles"],
        "strakes = 8 x 1200 mm",
        "1 to 24 strakes of 200 to 3000 mm",
    ),
    row(
        Name::Depths,
        "depths",
        &["z", "profondeurs"],
        "depths = every 500 mm",
        "1 to 200 depths, rising",
    ),
    row(
        Name::Headroom,
        "headroom",
        &["g", "head room", "freeboard", "ullage", "creux", "revanche", "garde", "hauteur libre"],
        "headroom = 300 mm",
        "under the wall's height, the sum of the strakes, or blank",
    ),
    row(
        Name::Stiffeners,
        "stiffeners",
        &["ring stiffeners", "stiffener", "raidisseurs", "raidisseur"],
        "stiffeners = yes",
        "yes or no",
    ),
    row(Name::Project, "project", &["projet", "affaire", "job", "title", "titre"], "", ""),
    row(Name::Customer, "customer", &["client"], "", ""),
    row(Name::Place, "place", &["lieu", "site", "chantier"], "", ""),
    row(Name::Author, "author", &["auteur", "redacteur", "drawn by"], "", ""),
    row(Name::Date, "date", &[], "", ""),
    row(Name::Revision, "revision", &["indice", "rev"], "", ""),
    row(
        Name::Note,
        "note",
        &["remarque", "remarques", "notes", "remark", "remarks", "comment", "comments"],
        "",
        "",
    ),
];

pub const COUNT: usize = NAMES.len();

/// What a text says of the order, with the most characters that each may have.
pub const LABELS: [(Name, usize); 7] = [
    (Name::Project, 60),
    (Name::Customer, 60),
    (Name::Place, 60),
    (Name::Author, 60),
    (Name::Date, 60),
    (Name::Revision, 60),
    (Name::Note, 200),
];

/// Names that a person may expect, and what says it here.
const ELSEWHERE: [(&[&str], Elsewhere); 30] = [
    (&["internal friction", "angle of internal friction"], Elsewhere::InternalFriction),
    (&["internal friction angle", "friction angle", "phi", "φ"], Elsewhere::InternalFriction),
    (&["frottement interne", "angle de frottement interne"], Elsewhere::InternalFriction),
    (&["strake height", "number of strakes", "strake count"], Elsewhere::CountOfStrakes),
    (&["nombre de viroles", "hauteur de virole"], Elsewhere::CountOfStrakes),
    (&["strakes (bottom first)", "strakes bottom first", "strakes bottom up"], Elsewhere::TopFirst),
    (&["strakes from bottom", "strakes from the bottom"], Elsewhere::TopFirst),
    (&["viroles de bas en haut", "viroles depuis le bas"], Elsewhere::TopFirst),
    (
        &[
            "thickness",
            "plate thickness",
            "sheet thickness",
            "wall thickness",
            "steel grade",
            "grade",
            "roof",
            "capacity",
            "volume",
            "tonnage",
            "moisture",
            "temperature",
            "epaisseur",
            "capacite",
            "toit",
        ],
        Elsewhere::Nothing,
    ),
    (&["height", "wall height", "silo height", "total height", "h", "v"], Elsewhere::Height),
    (&["hauteur", "hauteur de paroi", "hauteur du silo", "hauteur totale"], Elsewhere::Height),
    (&["width", "length", "side", "largeur", "longueur", "cote"], Elsewhere::Width),
    (&["radius", "inside radius", "rayon", "rayon interieur"], Elsewhere::Radius),
    (&["bottom"], Elsewhere::Bottom),
    (&["fill level", "filling level", "level"], Elsewhere::Level),
    (&["niveau", "niveau de remplissage", "grain level", "level of grain"], Elsewhere::Level),
    (&["hauteur de grain", "hauteur du grain", "hauteur de remplissage"], Elsewhere::Level),
    (&["angle of repose", "repose angle", "repose", "angle de talus"], Elsewhere::Heap),
    (&["heap", "surcharge", "talus", "overfill", "crown", "cone of grain"], Elsewhere::Heap),
    (&["heap above brim", "grain above brim", "above brim", "depassement"], Elsewhere::Heap),
    (&["partial factor", "safety factor", "load factor", "factor uls"], Elsewhere::PartialFactor),
    (&["gamma f", "gamma q", "facteur de charge", "facteur partiel"], Elsewhere::PartialFactor),
    (&["coefficient de securite", "coefficient partiel"], Elsewhere::PartialFactor),
    (&["factor of safety", "facteur de securite", "security factor"], Elsewhere::PartialFactor),
    (&["mean weight", "weight mean", "average weight"], Elsewhere::MeanWeight),
    (&["poids moyen", "poids volumique moyen", "measured weight"], Elsewhere::MeanWeight),
    (&["test weight", "poids specifique", "poids a l'hectolitre"], Elsewhere::MeanWeight),
    (&["hopper angle from vertical", "hopper half angle", "half angle"], Elsewhere::FromVertical),
    (&["apex angle", "demi angle", "demi angle au sommet"], Elsewhere::FromVertical),
    (&["fill height", "filling height", "grain height"], Elsewhere::Level),
];

/// Words beside friction or ratio for a value that is not the mean.
const EXTREMES: [&str; 25] = [
    "haut",
    "bas",
    "characteristic",
    "char",
    "design",
    "minimal",
    "maximal",
    "faible",
    "fort",
    "inferieur",
    "superieur",
    "low",
    "lower",
    "lowest",
    "min",
    "minimum",
    "least",
    "inf",
    "high",
    "higher",
    "highest",
    "upper",
    "max",
    "maximum",
    "sup",
];

/// Those of them for the upper end.
const HIGH: [&str; 9] =
    ["haut", "maximal", "fort", "superieur", "high", "higher", "highest", "upper", "max"];

/// A friction or ratio that is said to be low or high, or a weight that is said to be low.
fn extreme(plain: &str) -> Option<Elsewhere> {
    let (extremes, name): (Vec<&str>, Vec<&str>) =
        plain.split(' ').partition(|word| EXTREMES.contains(word));
    let is_high = |word: &&str| HIGH.contains(word);
    match Name::find(&name.join(" ")) {
        _ if extremes.is_empty() => None,
        Some(Name::Friction) => Some(Elsewhere::MeanFriction),
        Some(Name::Ratio) => Some(Elsewhere::MeanRatio),
        Some(Name::Weight) if !extremes.iter().any(is_high) => Some(Elsewhere::MeanWeight),
        _ => None,
    }
}

/// A friction that is said to be the grain's own.
fn internal(plain: &str) -> Option<Elsewhere> {
    let is_friction = |word: &str| word == "friction" || word == "frottement";
    let is_own = |word: &str| word.starts_with("intern") || word.starts_with("grain");
    let says = |is: fn(&str) -> bool| words(plain).any(is);
    (says(is_friction) && says(is_own)).then_some(Elsewhere::InternalFriction)
}

/// Words beside a name that leave it as it is. Any other may make it another.
const LEAVES: [&str; 20] = [
    "the",
    "of",
    "on",
    "unit",
    "bulk",
    "specific",
    "limit",
    "coefficient",
    "coeff",
    "value",
    "product",
    "inside",
    "inner",
    "internal",
    "clear",
    "silo",
    "bin",
    "mm",
    "du",
    "height",
];

/// A name with other words beside it that may make it another.
pub fn is_qualified(text: &str, name: Name) -> bool {
    let plain = plain(text).replace("top first", "").replace("top down", "");
    let row = &NAMES[name as usize];
    let spellings = row.others.iter().chain([&row.word]);
    let spelt: Vec<&str> = spellings.flat_map(|other| words(other)).collect();
    let is_spelt = |word: &str| match word.chars().count() {
        0..=3 => spelt.contains(&word),
        _ => !near(word, spelt.iter().copied()).is_empty(),
    };
    let count = words(&plain).count();
    count > 1 && words(&plain).any(|word| !LEAVES.contains(&word) && !is_spelt(word))
}

impl Name {
    pub fn word(self) -> &'static str {
        NAMES[self as usize].word
    }

    pub fn example(self) -> &'static str {
        NAMES[self as usize].example
    }

    /// Lines that say it without a number of anybody's.
    pub fn choices(self) -> &'static [&'static str] {
        match self {
            Name::Wall => &["wall = steel", "wall = concrete", "wall = corrugated"],
            Name::Factor => &["factor ="],
            Name::Floor => &["floor = flat"],
            Name::Depths => &["depths = strake edges"],
            _ => &[],
        }
    }

    pub fn limits(self) -> &'static str {
        NAMES[self as usize].limits
    }

    /// A name in any case and spacing, a common spelling, or ENV's symbol.
    pub fn find(text: &str) -> Option<Name> {
        let plain = plain(text);
        let spelt = |other: &&str| match other.chars().count() {
            1 => *other == text,
            _ => *other == plain,
        };
        let named = |row: &&Row| row.word == plain || row.others.iter().any(spelt);
        NAMES.iter().find(named).map(|row| row.name)
    }

    pub fn is_label(self) -> bool {
        LABELS.iter().any(|(label, _)| *label == self)
    }
}

/// What a person may have meant by an unknown name: what is said elsewhere, or names that are near.
pub fn meant(text: &str) -> (Option<Elsewhere>, Vec<Name>) {
    let plain = plain(text);
    let plain = plain.as_str();
    let said = ELSEWHERE.iter().find(|(names, _)| names.contains(&plain));
    let said = said.map(|(_, elsewhere)| *elsewhere);
    match said.or_else(|| extreme(plain)).or_else(|| internal(plain)) {
        Some(elsewhere) => (Some(elsewhere), Vec::new()),
        None => {
            let is_long = |other: &&&str| other.chars().count() > 3;
            let others = NAMES.iter().flat_map(|row| row.others).filter(is_long);
            let close = match &close(plain, NAMES.iter().map(|row| row.word))[..] {
                [] => self::close(plain, others.copied()),
                words => words.to_vec(),
            };
            let mut names: Vec<Name> = close.into_iter().filter_map(Name::find).collect();
            names.dedup();
            (None, names)
        }
    }
}

/// A word for nothing.
pub fn is_nothing(text: &str) -> bool {
    const WORDS: [&str; 10] =
        ["none", "no", "nil", "zero", "without", "0", "aucun", "aucune", "non", "sans"];
    WORDS.contains(&&*plain(text))
}

/// A word for a grain's surface at the brim.
pub fn is_brim(text: &str) -> bool {
    ["brim", "full", "level", "plein"].contains(&&*plain(text))
}

/// A word for the axis.
pub fn is_axis(text: &str) -> bool {
    const WORDS: [&str; 13] = [
        "middle",
        "axis",
        "on axis",
        "on the axis",
        "axial",
        "axially",
        "concentric",
        "in the centre",
        "in the middle",
        "at the centre",
        "au centre",
        "axe",
        "dans l'axe",
    ];
    let plain = plain(text);
    let is_centre = ["centr", "center"].iter().any(|stem| plain.starts_with(stem));
    WORDS.contains(&&*plain) || is_centre && plain.chars().all(char::is_alphabetic)
}

/// A word for a value that is left out.
pub fn is_blank(text: &str) -> bool {
    const WORDS: [&str; 8] =
        ["blank", "empty", "none", "unknown", "left blank", "vide", "aucun", "inconnu"];
    WORDS.contains(&&*plain(text))
}

/// Every name, those of the order last.
pub fn all() -> String {
    let of_the_silo = NAMES.iter().map(|row| row.word).take(COUNT - LABELS.len());
    let labels = LABELS.iter().map(|(name, _)| name.word());
    format!("{}, or, for all outputs, {}", choice(of_the_silo), listed(labels))
}

/// Letters with an accent, and the same without.
const ACCENTS: [(&str, &str); 9] = [
    ("àâäá", "a"),
    ("ç", "c"),
    ("éèêë", "e"),
    ("îïí", "i"),
    ("ôöó", "o"),
    ("ùûüú", "u"),
    ("œ", "oe"),
    ("’", "'"),
    ("_-", " "),
];

/// Small letters without accents, single spaces, `_` and `-` as spaces.
pub fn plain(text: &str) -> String {
    let accent = |c: &char| ('\u{300}'..='\u{36f}').contains(c);
    let mut letters = String::new();
    for c in text.to_lowercase().chars().filter(|c| !accent(c)) {
        match ACCENTS.iter().find(|(accents, _)| accents.contains(c)) {
            Some((_, plain)) => letters += plain,
            None => letters.push(c),
        }
    }
    letters.split_whitespace().collect::<Vec<&str>>().join(" ")
}

/// The words that a text is part of, or the nearest; all of them where none is near.
pub fn suggestion<'a>(text: &str, words: impl Iterator<Item = &'a str> + Clone) -> String {
    match &close(text, words.clone())[..] {
        [] => choice(words),
        close => format!("did you mean {}?", close.join(" or ")),
    }
}

fn choice<'a>(words: impl Iterator<Item = &'a str>) -> String {
    format!("it can be {}", listed(words))
}

fn listed<'a>(words: impl Iterator<Item = &'a str>) -> String {
    words.collect::<Vec<&str>>().join(", ")
}

/// Letters by which a misspelt word may differ at most.
const MOST_LETTERS: usize = 3;

/// The words of a text, without what stands between them.
pub fn words(text: &str) -> impl Iterator<Item = &str> {
    text.split(|c: char| !c.is_alphanumeric()).filter(|word| !word.is_empty())
}

/// The words that a text is part of or that are part of it; where there are none, the nearest, if it differs by few letters.
pub fn close<'a>(text: &str, words: impl Iterator<Item = &'a str> + Clone) -> Vec<&'a str> {
    let is_part = |word: &&str| self::words(text).any(|part| part == *word);
    match &words.clone().filter(is_part).collect::<Vec<&str>>()[..] {
        [] => near(text, words),
        whole => whole.to_vec(),
    }
}

/// The words that a text is part of; where there are none, the nearest, if it differs by few letters.
pub fn near<'a>(text: &str, words: impl Iterator<Item = &'a str> + Clone) -> Vec<&'a str> {
    let whole: Vec<&str> = words.clone().filter(|word| word.contains(text)).collect();
    if text.len() > 2 && !whole.is_empty() {
        return whole;
    }
    let few = (text.chars().count() / 4).clamp(1, MOST_LETTERS);
    let nearest = words.min_by_key(|word| distance(text, word));
    nearest.into_iter().filter(|word| distance(text, word) <= few).collect()
}

/// Letters to put in, leave out, exchange or swap with the next to turn one word into the other; of a long text 40 count.
fn distance(a: &str, b: &str) -> usize {
    let a: Vec<char> = a.chars().take(40).collect();
    let b: Vec<char> = b.chars().collect();
    let mut table = vec![vec![0; b.len() + 1]; a.len() + 1];
    for i in 0..=a.len() {
        for j in 0..=b.len() {
            table[i][j] = match (i, j) {
                (0, _) => j,
                (_, 0) => i,
                _ => {
                    let exchanged = table[i - 1][j - 1] + usize::from(a[i - 1] != b[j - 1]);
                    let swaps = i > 1 && j > 1 && a[i - 1] == b[j - 2] && a[i - 2] == b[j - 1];
                    let swapped = if swaps { table[i - 2][j - 2] + 1 } else { exchanged };
                    exchanged.min(swapped).min(table[i - 1][j] + 1).min(table[i][j - 1] + 1)
                }
            };
        }
    }
    table[a.len()][b.len()]
}

#[cfg(test)]
mod tests {
    use super::{plain, Name, ELSEWHERE, NAMES};

    /// Each spelling leads to one name, and to none of those that are said elsewhere.
    #[test]
    fn no_two_names_have_a_spelling_in_common() {
        let spellings = || NAMES.iter().flat_map(|row| row.others.iter().chain([&row.word]));
        let mut all: Vec<&str> = spellings().copied().collect();
        let count = all.len();
        all.sort_unstable();
        all.dedup();
        assert_eq!(all.len(), count);
        for row in &NAMES {
            for other in row.others.iter().chain([&row.word]) {
                assert_eq!(Name::find(other), Some(row.name), "{other}");
                assert!(other.chars().count() == 1 || plain(other) == *other, "{other}");
            }
        }
        for (names, _) in ELSEWHERE {
            assert!(names.iter().all(|name| Name::find(name).is_none() && plain(name) == *name));
        }
    }
}
