//! Reads a silo's text: `name = value unit` a line; `#` starts a comment, but not in a line about the order.
//!
//! The reader turns away what no sheet can hold, and values that can only be a slip, such as strakes of height x count; whether a silo
//! can be calculated is for the library to say.

use super::depths::Depths;
use super::line::Line;
use super::understood::is_read;
use crate::catalogue::Origin;
use crate::description::{Description, Section, MOST_STRAKES};
use crate::message::{self, cut, Choice, Elsewhere, Mend, Message, Number, Slip, What};
use crate::name::{self, Name};
use crate::number::{millimetres, Measure, ECCENTRICITY, HEADROOM, LENGTH, SIDE, STRAKE};
use crate::report::Labels;
use crate::value;

/// A description, where its product comes from, how the wall is built, what the text says of the order, and the line of each name.
#[derive(Debug)]
pub struct Text {
    pub description: Description,
    pub origin: Origin,
    /// The shell has ring stiffeners.
    pub stiffened: bool,
    pub labels: Labels,
    pub lines: Vec<Line>,
}

impl Text {
    /// The line that says a number, which may be another name's.
    pub fn line(&self, name: Name) -> Option<usize> {
        let others: &[Name] = match name {
            Name::Weight | Name::Ratio | Name::Factor => &[Name::Product],
            Name::Friction => &[Name::Wall, Name::Product],
            Name::HopperHeight => &[Name::HopperAngle],
            Name::HopperRun => &[Name::OutletWidth, Name::HopperAngle],
            _ => &[],
        };
        let mut names = [name].into_iter().chain(others.iter().copied());
        names.find_map(|name| self.named(name)).map(|line| line.number)
    }

    /// The line of that name.
    pub fn named(&self, name: Name) -> Option<&Line> {
        self.lines.iter().find(|line| line.name == name)
    }
}

/// The text's lines by name, and what is wrong so far.
#[derive(Default)]
pub(super) struct Reader {
    /// The first of each name.
    pub(super) lines: Vec<Line>,
    /// Names that stand in the text misspelt or without an equals sign; their slips are told.
    pub(super) meant: Vec<Name>,
    /// Lines under names that say what is said elsewhere, to be judged by the others.
    pub(super) elsewhere: Vec<(Elsewhere, String, Line)>,
    messages: Vec<Message>,
}

/// Some line gives one of the names of a silo's text.
pub fn is_silo(text: &str) -> bool {
    let named = |line: &str| {
        line.split_once('=').is_some_and(|(name, _)| Name::find(name.trim()).is_some())
    };
    text.split(['\n', '\r']).any(named)
}

pub fn read(text: &str) -> Result<Text, Vec<Message>> {
    let mut reader = Reader::of(text);
    reader.judge_elsewhere();
    let described = reader.description();
    let stiffened = reader.stiffeners();
    let labels = reader.labels();
    match described.filter(|_| reader.messages.is_empty()) {
        Some((description, origin)) => {
            Ok(Text { description, origin, stiffened, labels, lines: reader.lines })
        }
        None => Err(reader.sorted_messages()),
    }
}

/// A label may have `#` in it.
fn without_comment(line: &str) -> &str {
    let Some((content, _)) = line.split_once('#') else { return line.trim() };
    let name = content.split_once('=').and_then(|(name, _)| Name::find(name.trim()));
    match name.is_some_and(Name::is_label) {
        true => line.trim(),
        false => content.trim(),
    }
}

/// Control characters but the tab, and marks that have no shape of their own or turn the order of others.
fn is_unseen(c: char) -> bool {
    (c.is_control() && c != '\t')
        || matches!(c, '\u{200b}'..='\u{200f}' | '\u{202a}'..='\u{202e}' | '\u{2060}'..='\u{206f}')
        || matches!(c, '\u{ad}' | '\u{34f}' | '\u{61c}' | '\u{180e}' | '\u{fe0f}')
        || matches!(c, '\u{feff}' | '\u{fffe}' | '\u{ffff}')
}

/// Bytes at the start of a line in which a name is looked for: more than any has.
const LONGEST_NAME: usize = 60;

/// The name at the start of a line without an equals sign, and what follows it.
fn named(content: &str) -> Option<(Name, &str)> {
    let breaks = content.match_indices([' ', '\t', ':', ';', ',', '|']).map(|(at, _)| at);
    let breaks = breaks.chain([content.len()]).take_while(|at| *at <= LONGEST_NAME);
    let found = breaks.filter_map(|at| {
        let name = Name::find(content[..at].trim())?;
        let between = |c: char| !c.is_alphanumeric() && c != '.';
        let value = content[at..].trim_start_matches(between).trim_end();
        let verbs = ["is ", "of ", "equals ", "est ", "de "];
        let value = verbs.iter().find_map(|verb| value.strip_prefix(verb)).unwrap_or(value);
        Some((name, value.trim_start()))
    });
    found.last()
}

/// Hopper height and run of a flat floor.
pub(super) fn flat(value: &str) -> Result<(u32, u32), Slip> {
    match name::plain(value).as_str() {
        "flat" | "plat" | "flat floor" | "flat bottom" | "fond plat" => Ok((0, 0)),
        _ => Err(Slip::new(Choice::Floor)),
    }
}

pub(super) fn stiffened(value: &str) -> Result<bool, Slip> {
    match name::plain(value).as_str() {
        "yes" | "oui" => Ok(true),
        "no" | "non" | "none" | "" => Ok(false),
        word => {
            let meant = match word {
                "y" | "true" | "with" | "ring" | "rings" | "avec" => Some("yes"),
                "n" | "false" | "without" | "sans" | "aucun" | "0" => Some("no"),
                _ => None,
            };
            Err(Slip::new(Choice::YesOrNo).with(meant.map(Mend::plain)))
        }
    }
}

/// The line that says the same under its own name.
fn said_elsewhere(elsewhere: Elsewhere, value: &str) -> Option<Mend> {
    let flat = || Mend::plain("flat").of_line(Name::Floor);
    match elsewhere {
        Elsewhere::Radius => {
            let twice = value::quantity(value, &LENGTH).ok()?.checked_mul(2)?;
            Some(Mend::plain(millimetres(twice)).of_line(Name::Diameter))
        }
        Elsewhere::Bottom => self::flat(value).ok().map(|_| flat()),
        Elsewhere::NoHopper => Some(flat()),
        _ => None,
    }
}

/// The line with each mend that can be read.
pub(super) fn mended(line: &Line, mends: &[Mend]) -> Vec<String> {
    let good = |mend: &&Mend| is_read(mend.name.unwrap_or(line.name), mend);
    mends.iter().filter(good).map(|mend| line.mended(mend)).collect()
}

/// Signs before a comment in other programs' texts.
const COMMENTS: [&str; 5] = ["//", "--", ";", "%", "REM "];

/// Characters that are shown of a line at most.
const LONGEST_LINE: usize = 80;

/// Messages of a text at most; it is not read on behind them, and no line is told to be missing.
const MOST_MESSAGES: usize = 1000;

fn shortened(text: &str) -> String {
    cut(text, LONGEST_LINE)
}

impl Reader {
    pub(super) fn of(text: &str) -> Reader {
        let mut reader = Reader::default();
        let text = text.trim_start_matches('\u{feff}').replace("\r\n", "\n").replace('\r', "\n");
        for (i, line) in text.lines().enumerate() {
            if reader.is_full() {
                break;
            }
            if !without_comment(line).is_empty() {
                reader.enter(i + 1, line);
            }
        }
        reader
    }

    /// A slip of a line, or of none.
    pub(super) fn fail(&mut self, line: Option<usize>, slip: Slip) {
        self.fail_with(line, slip, Vec::new());
    }

    pub(super) fn fail_with(&mut self, line: Option<usize>, slip: Slip, fixes: Vec<String>) {
        self.tell(Message { line, fixes, ..Message::new(slip) });
    }

    fn tell(&mut self, message: Message) {
        if !self.is_full() {
            self.messages.push(message);
        }
    }

    fn is_full(&self) -> bool {
        self.messages.len() + self.elsewhere.len() >= MOST_MESSAGES
    }

    /// A slip of the value of a name's line.
    pub(super) fn fail_value(&mut self, name: Name, slip: Slip) {
        let Some(line) = self.entry(name) else { return };
        let value = shortened(&line.value);
        let letters = |text: &str| text.split_whitespace().collect::<String>();
        let all = letters(&slip.part) == letters(&line.value);
        let part = if all { String::new() } else { slip.part.clone() };
        let mut fixes = mended(line, &slip.mends);
        match *slip.what {
            What::Number(Number::Mass(_) | Number::MeanWeight)
                if self.is_lighter_than_table(&slip.mends) =>
            {
                fixes.insert(0, line.left_out())
            }
            What::Number(Number::Blank) if self.has(Name::Product) => fixes = vec![line.left_out()],
            // the line may be named by the angle
            What::Number(Number::Angle(_)) => {
                let tangents = slip.mends.iter().map(|mend| mend.clone().of_line(name));
                fixes = mended(line, &tangents.collect::<Vec<Mend>>());
            }
            _ => (),
        }
        let message = Message {
            line: Some(line.number),
            name: Some(name),
            subject: format!("{} = {value}", name.word()).trim_end().to_string(),
            limits: name.limits().to_string(),
            fixes,
            ..Message::new(Slip { part, ..slip })
        };
        self.tell(message);
    }

    /// By line, with missing lines last.
    fn sorted_messages(mut self) -> Vec<Message> {
        self.messages.sort_by_key(|message| message.line.unwrap_or(usize::MAX));
        self.messages
    }

    fn enter(&mut self, number: usize, line: &str) {
        let content = without_comment(line);
        if let Some(at) = content.chars().position(is_unseen) {
            return self.unseen(number, line, at);
        }
        let Some((word, value)) = content.split_once('=') else {
            return self.no_equals_sign(number, line);
        };
        let word = word.trim_end_matches([' ', '\t', ':']).trim_start();
        if word.is_empty() {
            return self
                .fail(Some(number), Slip::new(message::Line::NoName).at(shortened(content)));
        }
        match Name::find(word) {
            Some(name) => self.put(Line::new(number, name, line, value.trim())),
            None => self.unknown_name(number, word, line, value.trim()),
        }
    }

    /// A character that does not show; the mend is the line without any.
    fn unseen(&mut self, number: usize, line: &str, at: usize) {
        let before = line.len() - line.trim_start().len();
        let shown: String = line.chars().filter(|c| !is_unseen(*c)).collect();
        let word = shown.split('=').next().unwrap_or("").trim();
        let name = Name::find(word);
        self.meant.extend(name);
        let character = without_comment(line).chars().nth(at).unwrap_or_default();
        let at = line[..before].chars().count() + at + 1;
        let slip = Slip::new(message::Line::Unseen { character, at });
        let message = Message { line: Some(number), name, ..Message::new(slip) };
        self.tell(Message { fixes: vec![shown.clone()], ..message });
    }

    fn unknown_name(&mut self, number: usize, word: &str, line: &str, value: &str) {
        let (mut elsewhere, names) = name::meant(word);
        if let Some(elsewhere) = elsewhere.filter(|elsewhere| elsewhere.is_judged()) {
            let written = Line::new(number, Name::Note, line, value);
            return self.elsewhere.push((elsewhere, shortened(word), written));
        }
        let is_flat = name::is_nothing(value) || flat(value).is_ok();
        if ["hopper", "cone", "tremie"].contains(&&*name::plain(word)) && is_flat {
            elsewhere = Some(Elsewhere::NoHopper);
        }
        let mends: Vec<Mend> = match elsewhere {
            Some(elsewhere) => said_elsewhere(elsewhere, value).into_iter().collect(),
            None => {
                let plain = names.iter().filter(|name| !name::is_qualified(word, **name));
                plain.map(|name| Mend::plain(value).of_line(*name)).collect()
            }
        };
        match elsewhere {
            Some(elsewhere) => self.meant.extend(elsewhere.name()),
            None => self.meant.extend(&names),
        }
        let written = Line::new(number, Name::Note, line, value);
        let mut fixes = mended(&written, &mends);
        fixes.extend(elsewhere.filter(|says| says.is_too_much()).map(|_| written.left_out()));
        let slip = Slip::new(message::Line::UnknownName { elsewhere });
        self.fail_with(Some(number), slip.at(shortened(word)).with(mends), fixes);
    }

    fn put(&mut self, line: Line) {
        let Line { number, name, .. } = line;
        match self.entry(name) {
            Some(Line { number: first, .. }) => {
                let slip = Slip::new(message::Line::Twice { name, first: *first });
                self.fail(Some(number), slip);
            }
            None => self.lines.push(line),
        }
    }

    fn no_equals_sign(&mut self, number: usize, line: &str) {
        let content = without_comment(line);
        let words = line.trim_start();
        if let Some(words) = COMMENTS.iter().find_map(|sign| words.strip_prefix(sign)) {
            let slip = Slip::new(message::Line::Comment).at(shortened(content));
            return self.fail_with(Some(number), slip, vec![format!("# {}", words.trim())]);
        }
        let named = named(content);
        let mend = named.map(|(name, value)| Mend::plain(value).of_line(name));
        let fix = named.zip(mend.as_ref());
        let fix =
            fix.map(|((name, value), mend)| Line::new(number, name, line, value).mended(mend));
        let name = named.map(|(name, _)| name);
        self.meant.extend(name);
        let slip = Slip::new(message::Line::NoEqualsSign).at(shortened(content)).with(mend);
        let fixes = fix.into_iter().collect();
        self.tell(Message { line: Some(number), name, fixes, ..Message::new(slip) });
    }

    /// One of some names stands in the text, but could not be read as such.
    pub(super) fn is_meant(&self, names: &[Name]) -> bool {
        names.iter().any(|name| self.meant.contains(name))
    }

    pub(super) fn entry(&self, name: Name) -> Option<&Line> {
        self.lines.iter().find(|line| line.name == name)
    }

    pub(super) fn has(&self, name: Name) -> bool {
        self.entry(name).is_some()
    }

    /// The value of a name's line, as `read` has it; a message where the line is missing or wrong.
    pub(super) fn take<T>(
        &mut self,
        name: Name,
        read: impl FnOnce(&str) -> Result<T, Slip>,
    ) -> Option<T> {
        let Some(line) = self.entry(name) else { return self.missing(&[name]) };
        match read(&line.value) {
            Ok(read) => Some(read),
            Err(slip) => {
                self.fail_value(name, slip);
                None
            }
        }
    }

    pub(super) fn number<T: TryFrom<u64>>(&mut self, name: Name, measure: &Measure) -> Option<T> {
        let number = self.take(name, |value| value::quantity(value, measure))?;
        T::try_from(number).ok()
    }

    /// The first of some names that has a line, and that line.
    pub(super) fn first(&self, names: &[Name]) -> Option<(usize, Name)> {
        names.iter().find_map(|name| self.entry(*name).map(|line| (line.number, *name)))
    }

    /// Of two ways to say the same, an error where the text has both or neither. The other's first two names say it.
    fn either(&mut self, one: &[Name], other: &[Name]) -> bool {
        match (self.first(one), self.first(other)) {
            (Some(a), Some(b)) => {
                let (before, after) = if a.0 < b.0 { (a, b) } else { (b, a) };
                let other = other[..other.len().min(2)].to_vec();
                let slip = message::Line::Beside {
                    after: after.1,
                    before: before.1,
                    one: one.to_vec(),
                    other,
                };
                self.fail(Some(after.0), Slip::new(slip));
                false
            }
            (None, None) if self.is_meant(one) || self.is_meant(other) => false,
            (None, None) => self.missing::<()>(&[one[0], other[0]]).is_some(),
            _ => true,
        }
    }

    /// None of some names has a line, and one is due.
    pub(super) fn missing<T>(&mut self, names: &[Name]) -> Option<T> {
        if self.is_meant(names) {
            return None;
        }
        let slip = Slip::new(message::Line::Missing(names.to_vec()));
        let fixes = names.iter().flat_map(|name| name.choices()).map(|line| line.to_string());
        self.tell(Message { fixes: fixes.collect(), ..Message::new(slip) });
        None
    }

    pub(super) fn line(&self, name: Name) -> Option<usize> {
        self.entry(name).map(|line| line.number)
    }

    fn description(&mut self) -> Option<(Description, Origin)> {
        let section = self.section();
        let product = self.product();
        let filling_eccentricity = self.number(Name::FillingEccentricity, &ECCENTRICITY);
        let outlet_eccentricity = self.number(Name::OutletEccentricity, &ECCENTRICITY);
        let bottom = self.bottom(section);
        let strakes = self.strakes();
        let depths = self.depths(strakes.as_deref());
        let headroom = self.headroom();
        let (product, origin) = product?;
        let (hopper_height, hopper_run) = bottom?;
        let description = Description {
            section: section?,
            product,
            filling_eccentricity: filling_eccentricity?,
            outlet_eccentricity: outlet_eccentricity?,
            hopper_height,
            hopper_run,
            strakes: strakes?,
            depths: depths?,
            headroom: headroom?,
        };
        Some((description, origin))
    }

    /// What the text says of the order; a line left blank says nothing.
    fn labels(&mut self) -> Labels {
        let mut labels = Labels::new();
        for (name, most) in name::LABELS {
            let Some(Line { number, value, .. }) = self.entry(name) else { continue };
            let line = Some(*number);
            let value = value.split_whitespace().collect::<Vec<&str>>().join(" ");
            let length = value.chars().count();
            if length > most {
                self.fail(line, Slip::new(message::Line::LabelTooLong { name, length, most }));
            }
            if length > 0 {
                labels.push((name.word(), value));
            }
        }
        labels
    }

    fn section(&mut self) -> Option<Section> {
        if !self.either(&[Name::Diameter], &[Name::Sides]) {
            return None;
        }
        if self.has(Name::Diameter) {
            return Some(Section::Circle(self.number(Name::Diameter, &SIDE)?));
        }
        let (a, b) = self.take(Name::Sides, |value| value::pair(value, &SIDE))?;
        Some(Section::Rectangle(a.try_into().ok()?, b.try_into().ok()?))
    }

    /// Hopper height and run, both 0 for a flat floor.
    fn bottom(&mut self, section: Option<Section>) -> Option<(u32, u32)> {
        const HOPPER: [Name; 4] =
            [Name::HopperHeight, Name::HopperRun, Name::HopperAngle, Name::OutletWidth];
        if !self.either(&[Name::Floor], &HOPPER) {
            return None;
        }
        if self.has(Name::Floor) {
            return self.take(Name::Floor, flat);
        }
        self.hopper(section)
    }

    fn strakes(&mut self) -> Option<Vec<u16>> {
        let heights =
            self.take(Name::Strakes, |value| value::list(value, &STRAKE, MOST_STRAKES))?;
        heights.into_iter().map(|height| height.try_into().ok()).collect()
    }

    /// Ring stiffeners; without a line, or with one that is left blank, there are none.
    fn stiffeners(&mut self) -> bool {
        self.has(Name::Stiffeners) && self.take(Name::Stiffeners, stiffened).unwrap_or(false)
    }

    /// Without a line, or with one that is left blank, the grain reaches the brim.
    fn headroom(&mut self) -> Option<u32> {
        match self.entry(Name::Headroom) {
            Some(line) if !line.value.is_empty() => self.number(Name::Headroom, &HEADROOM),
            _ => Some(0),
        }
    }

    /// Depths at the strakes' edges or at even steps need a wall whose strakes could be read.
    fn depths(&mut self, strakes: Option<&[u16]>) -> Option<Vec<u32>> {
        let written = self.take(Name::Depths, Depths::read)?;
        let strakes = match (&written, strakes) {
            (Depths::List(list), _) => return Some(list.clone()),
            (_, strakes) => strakes?,
        };
        self.take(Name::Depths, |_| written.along(strakes))
    }
}
