//! Table 7.1 of ENV 1991-4: the products' names here, their numbers from the library.

use crate::csv::Dialect;
use crate::description::Product;
use crate::json;
use crate::library::Refusal;
use crate::message::{Choice, Mend, Slip};
use crate::name::{near, plain, words, Name};
use crate::number::hundredths;
use crate::report::PROGRAM;

/// A row of table 7.1: the product's name, other names (those of the French table among them), and the table's notes.
struct Row {
    name: &'static str,
    others: &'static [&'static str],
    note: &'static str,
}

const fn named(name: &'static str, others: &'static [&'static str], note: &'static str) -> Row {
    Row { name, others, note }
}

/// In the library's order of rows.
const PRODUCTS: [Row; 10] = [
    named("barley", &["orge"], "1"),
    named("cement", &["ciment"], ""),
    named("clinker", &[], ""),
    named("dry sand", &["sable sec"], "2"),
    named("flour", &["farine"], "1"),
    named("fly ash", &["coal ash", "cendre volante", "cendres volantes"], "1"),
    named("maize", &["corn", "mais"], "1"),
    named("sugar", &["sucre"], "1"),
    named("wheat", &["ble"], ""),
    named("coal", &["charbon"], "1 2"),
];

/// The table's notes that rows refer to, and those for all of it.
const NOTES: [(&str, &str); 4] = [
    ("1", "Dust explosions may occur with this product."),
    ("2", "Take care: the properties of this product vary."),
    ("", "The weights are for loads, not for volumes."),
    ("", "The friction on steel does not hold for corrugated walls."),
];

const USE: &str = "
In a silo's text, product = NAME and wall = steel or concrete take a row's four
numbers; on a corrugated wall, product = NAME and friction = your own take the
other three.
";

/// The row of a product's name.
pub fn row(text: &str) -> Result<u32, Slip> {
    let written = plain(text);
    let called = |row: &Row| row.name == written || row.others.contains(&&*written);
    PRODUCTS.iter().position(called).map(|row| row as u32).ok_or_else(|| {
        let names = PRODUCTS.iter().map(|row| row.name);
        let near = likely(&written).into_iter().map(Mend::plain);
        Slip::new(Choice::Product(names.collect())).with(near)
    })
}

/// Products that a name is near to, or the one that it has words beside that leave it as it is. Any other word or number may make it
/// heavier.
fn likely(written: &str) -> Vec<&'static str> {
    const LEAVES: [&str; 14] = [
        "grain", "grains", "seed", "seeds", "kernel", "kernels", "in", "bulk", "winter", "spring",
        "soft", "en", "vrac", "tendre",
    ];
    let names = PRODUCTS.iter().map(|row| row.name);
    let others = PRODUCTS.iter().flat_map(|row| row.others).copied();
    let left: Vec<&str> = words(written).filter(|word| !LEAVES.contains(word)).collect();
    let left = left.join(" ");
    let exact = names.clone().chain(others.clone()).find(|name| *name == left);
    match &near(&left, names.clone())[..] {
        _ if left.contains(|c: char| c.is_ascii_digit()) => Vec::new(),
        _ if exact.is_some() => exact.into_iter().collect(),
        [] => near(&left, others),
        near => near.to_vec(),
    }
}

/// A name of a product or of a wall.
pub fn is_name(text: &str) -> bool {
    row(text).is_ok() || Wall::read(text).is_ok()
}

/// The name of a row's product.
pub fn product(row: u32) -> &'static str {
    PRODUCTS[row as usize].name
}

/// The walls of table 7.1, and walls for which it has no friction, in the text's own words.
#[derive(Clone, Debug, PartialEq, Eq)]
pub enum Wall {
    Steel,
    Concrete,
    Corrugated(String),
}

/// Words for walls of bolted, corrugated or galvanised sheets.
const CORRUGATED: [&str; 4] = ["corrugated", "galvani", "bolted", "profiled"];
/// The same in French, as `plain` has them.
const FRENCH: [&str; 5] = ["ondul", "nervur", "boulonn", "acier galva", "tole galva"];
/// Words beside these that leave the wall as it is. With any other it may be a smooth one.
const LEAVES: [&str; 24] = [
    "steel",
    "sheet",
    "sheets",
    "sheeting",
    "wall",
    "walls",
    "panel",
    "panels",
    "metal",
    "iron",
    "and",
    "with",
    "hot",
    "dip",
    "dipped",
    "horizontally",
    "vertically",
    "acier",
    "tole",
    "toles",
    "paroi",
    "parois",
    "et",
    "galva",
];

impl Wall {
    pub fn read(text: &str) -> Result<Wall, Slip> {
        let written = plain(text);
        let words: Vec<&str> = words(&written).collect();
        let spaced = format!(" {}", words.join(" "));
        let stems = || CORRUGATED.iter().chain(&FRENCH);
        let is_known =
            |word: &&str| LEAVES.contains(word) || stems().any(|stem| word.starts_with(stem));
        let known = words.iter().all(is_known);
        let says = |stem: &&str| known && spaced.contains(&format!(" {stem}"));
        match &*written {
            "steel" | "smooth steel" | "acier" | "acier lisse" => Ok(Wall::Steel),
            "concrete" | "beton" | "beton arme" => Ok(Wall::Concrete),
            _ if FRENCH.iter().any(says) => Ok(Wall::Corrugated("corrugated wall".to_string())),
            _ if CORRUGATED.iter().any(says) => {
                let noun = ["steel", "wall"].iter().any(|noun| written.ends_with(noun));
                Ok(Wall::Corrugated(written + if noun { "" } else { " wall" }))
            }
            _ => Err(Slip::new(Choice::Wall).with(Wall::likely(&written).map(Mend::plain))),
        }
    }

    /// Table 7.1's wall that other words are for; none beside any word that may be for a smoother one.
    fn likely(written: &str) -> Option<&'static str> {
        const LIKE_STEEL: [&str; 6] = ["mild", "carbon", "plain", "welded", "structural", "wall"];
        const LIKE_CONCRETE: [&str; 6] =
            ["reinforced", "plain", "cast", "precast", "structural", "wall"];
        let words: Vec<&str> = words(written).collect();
        let is_like = |wall: &str, like: &[&str]| {
            words.contains(&wall) && words.iter().all(|word| *word == wall || like.contains(word))
        };
        if let [word] = words[..] {
            // uncorrugated is near to corrugated
            return near(word, [WALLS[0], WALLS[1], CORRUGATED[0]].into_iter())
                .pop()
                .filter(|_| !["un", "de"].iter().any(|start| word.starts_with(start)));
        }
        let [steel, concrete] = WALLS;
        match is_like(steel, &LIKE_STEEL) {
            true => Some(steel),
            false => Some(concrete).filter(|wall| is_like(wall, &LIKE_CONCRETE)),
        }
    }

    pub fn word(&self) -> &str {
        match self {
            Wall::Steel => WALLS[0],
            Wall::Concrete => WALLS[1],
            Wall::Corrugated(word) => word,
        }
    }
}

/// Walls in the library's order.
const WALLS: [&str; 2] = ["steel", "concrete"];
const STEEL: u32 = 0;
const CONCRETE: u32 = 1;

/// Where a product's numbers come from.
#[derive(Clone, Debug, Default, PartialEq, Eq)]
pub struct Origin {
    /// A row of table 7.1 that the text names; none for the text's own numbers and for a sheet's.
    pub row: Option<u32>,
    pub wall: Option<Wall>,
    /// Numbers of the row that the text replaced by its own.
    pub replaced: Vec<Name>,
}

impl Origin {
    /// The row's numbers, before any is replaced; its friction is that on steel unless the wall is concrete.
    pub fn numbers(row: u32, wall: Option<&Wall>) -> Result<Product, Refusal> {
        let wall = if wall == Some(&Wall::Concrete) { CONCRETE } else { STEEL };
        Product::from_catalogue(row, wall)
    }

    /// What stands before the numbers: "wheat on steel, table 7.1", "as table 7.1 wheat on steel", or "by its numbers".
    pub fn shown(&self, product: &Product) -> String {
        let wall = self.wall.as_ref().map(|wall| format!("on {}", wall.word()));
        let Some(row) = self.row else {
            // a named wall that is another one is not the table's
            let known = name_of(product).filter(|name| match &self.wall {
                Some(wall) => name.ends_with(&format!(" on {}", wall.word())),
                None => true,
            });
            return match (known, wall) {
                (Some(name), _) => format!("as table 7.1 {name}"),
                (None, Some(wall)) => format!("{wall}, by its numbers"),
                (None, None) => "by its numbers".to_string(),
            };
        };
        let name = self::product(row).to_string();
        let name = [name].into_iter().chain(wall).collect::<Vec<String>>().join(" ");
        let own: Vec<&str> = self.replaced.iter().map(|name| name.word()).collect();
        match own.is_empty() {
            true => format!("{name}, table 7.1"),
            false => format!("{name}, table 7.1 with own {}", own.join(" and ")),
        }
    }

    /// The weight is neither that of the row that the text names nor part of four numbers that are a row's.
    pub fn has_own_weight(&self, product: &Product) -> bool {
        match self.row {
            Some(row) => {
                Origin::numbers(row, None).is_ok_and(|table| table.weight != product.weight)
            }
            None => name_of(product).is_none(),
        }
    }

    /// The friction is the one that table 7.1 has for this product on steel, and the wall is not concrete.
    pub fn has_friction_on_steel(&self, product: &Product) -> bool {
        let on_steel = |row| Product::from_catalogue(row, STEEL);
        let equal = match self.row {
            Some(row) => on_steel(row).is_ok_and(|row| row.friction == product.friction),
            None => (0..PRODUCTS.len()).any(|row| on_steel(row as u32).as_ref() == Ok(product)),
        };
        equal && self.wall != Some(Wall::Concrete)
    }
}

/// "wheat on steel", for a product whose four numbers are those of a row.
pub fn name_of(product: &Product) -> Option<String> {
    for (row, Row { name, .. }) in PRODUCTS.iter().enumerate() {
        for (wall, material) in WALLS.iter().enumerate() {
            if Product::from_catalogue(row as u32, wall as u32).as_ref() == Ok(product) {
                return Some(format!("{name} on {material}"));
            }
        }
    }
    None
}

/// A row's numbers: weight in N/m³; ratio, friction on steel and on concrete and factor in hundredths. None past the last row.
fn numbers(row: u32) -> Option<[u32; 5]> {
    let steel = Product::from_catalogue(row, STEEL).ok()?;
    let concrete = Product::from_catalogue(row, CONCRETE).ok()?;
    let hundredths = [steel.ratio, steel.friction, concrete.friction, steel.factor];
    let [ratio, on_steel, on_concrete, factor] = hundredths.map(u32::from);
    Some([steel.weight, ratio, on_steel, on_concrete, factor])
}

/// The same as they are written.
fn written(row: u32) -> Option<[String; 5]> {
    let [weight, rest @ ..] = numbers(row)?;
    let [ratio, on_steel, on_concrete, factor] = rest.map(|number| hundredths(number.into()));
    Some([weight.to_string(), ratio, on_steel, on_concrete, factor])
}

/// Table 7.1.
pub fn table() -> String {
    let mut page = String::from(
        "Table 7.1 of ENV 1991-4
row  product      weight   ratio  friction  friction  factor  note
                       γ      Ks         μ         μ      C0
                    N/m3            steel  concrete
",
    );
    for (row, Row { name, note, .. }) in (0..).zip(&PRODUCTS) {
        let Some([weight, ratio, steel, concrete, factor]) = written(row) else { break };
        let line = format!(
            "{row:>3}  {name:<10}{weight:>9}{ratio:>8}{steel:>10}{concrete:>10}{factor:>8}  {note}"
        );
        page += line.trim_end();
        page.push('\n');
    }
    page.push('\n');
    for (number, note) in NOTES {
        page += &format!("{number:<3}{note}\n");
    }
    page + USE
}

/// Table 7.1 for a spreadsheet.
pub fn csv(dialect: Dialect) -> String {
    const HEAD: [&str; 8] = [
        "row",
        "product",
        "weight (N/m3)",
        "ratio",
        "friction on steel",
        "friction on concrete",
        "factor",
        "notes",
    ];
    let mut page = dialect.page(HEAD.map(String::from));
    for (row, Row { name, note, .. }) in (0..).zip(&PRODUCTS) {
        let Some(numbers) = written(row) else { break };
        let numbers = numbers.iter().map(|number| dialect.number(number));
        let names = [row.to_string(), name.to_string()];
        page += &dialect.line(names.into_iter().chain(numbers).chain([note.to_string()]));
    }
    for (number, note) in NOTES {
        let note = ["note".to_string(), number.to_string(), dialect.text(note)];
        page += &dialect.line(note.into_iter().chain([const { String::new() }; 5]));
    }
    dialect.checked(page, HEAD.len())
}

/// Table 7.1 for a program.
pub fn json() -> String {
    let products =
        (0..).zip(&PRODUCTS).map_while(|(row, product)| Some(product.json(row, numbers(row)?)));
    let notes = NOTES.map(|(number, note)| {
        let number = if number.is_empty() { "null" } else { number };
        json::object(&[("number", number.to_string()), ("note", json::string(note))])
    });
    json::document(&[
        ("program", json::string(PROGRAM)),
        ("table", json::string("7.1")),
        ("products", json::lines(products)),
        ("notes", json::lines(notes.into_iter())),
    ])
}

impl Row {
    fn json(&self, row: u32, numbers: [u32; 5]) -> String {
        const NAMES: [&str; 5] = [
            "weight_n_per_m3",
            "ratio_hundredths",
            "friction_on_steel_hundredths",
            "friction_on_concrete_hundredths",
            "factor_hundredths",
        ];
        let list = |values: Vec<String>| format!("[{}]", values.join(", "));
        let others = self.others.iter().map(|name| json::string(name)).collect();
        let notes = self.note.split_whitespace().map(String::from).collect();
        let names = [
            ("row", row.to_string()),
            ("name", json::string(self.name)),
            ("other_names", list(others)),
        ];
        let numbers = NAMES.into_iter().zip(numbers.map(|number| number.to_string()));
        let fields = names.into_iter().chain(numbers).chain([("notes", list(notes))]);
        json::object(&fields.collect::<Vec<(&str, String)>>())
    }
}
