//! What is wrong in one place of a file, as data: text and JSON are made from it, and its words stand in one module.

mod slip;
pub mod words;

pub use slip::{
    Bytes, Choice, Depths, Elsewhere, Hopper, Limit, Line, List, Number, Product, Record, Size,
    What,
};

use crate::json;
use crate::name::Name;
use std::fmt;

/// What may stand in place of a value, or of the part of it that is at fault.
#[derive(Clone, Debug, PartialEq, Eq)]
pub struct Mend {
    pub value: String,
    /// The whole value with this part, where it is more than the part.
    whole: Option<String>,
    /// The name of the line where that changes too.
    pub name: Option<Name>,
    pub reading: Reading,
}

/// How the value was read to come to a mend.
#[derive(Clone, Debug, PartialEq, Eq)]
pub enum Reading {
    Plain,
    /// A comma as a decimal's point.
    Decimal,
    /// Commas between so many numbers.
    Numbers(usize),
    /// A number in hundredths.
    Hundredths,
    /// The lower and the upper friction beside a finer one: careful for push on wall and floor, and for drag on the wall.
    ForPush,
    ForDrag,
    /// The lower and the upper ratio: careful for the floor, and for the wall.
    ForFloor,
    ForWall,
    /// An angle from the vertical, turned into one from the horizontal.
    Vertical,
    /// A hopper of that angle, in ten-thousandths of a degree.
    Slope(u64),
    /// A wall in one piece as strakes.
    OnePiece,
}

impl Mend {
    pub fn new(value: impl Into<String>, reading: Reading) -> Mend {
        Mend { value: value.into(), whole: None, name: None, reading }
    }

    pub fn plain(value: impl Into<String>) -> Mend {
        Mend::new(value, Reading::Plain)
    }

    pub fn read_as(self, reading: Reading) -> Mend {
        Mend { reading, ..self }
    }

    pub fn of_line(self, name: Name) -> Mend {
        Mend { name: Some(name), ..self }
    }

    /// The same as a part of a longer value.
    pub fn in_whole(self, whole: String) -> Mend {
        Mend { whole: Some(whole), ..self }
    }

    /// The part without what stands round it.
    pub fn alone(self) -> Mend {
        Mend { whole: None, ..self }
    }

    /// The value of the line.
    pub fn whole(&self) -> &str {
        self.whole.as_deref().unwrap_or(&self.value)
    }
}

/// What is wrong with a value or with a part of it, and what may stand there.
#[derive(Clone, Debug, PartialEq, Eq)]
pub struct Slip {
    pub what: Box<What>,
    /// The part that is at fault; empty where it is all of it.
    pub part: String,
    pub mends: Vec<Mend>,
    /// So many places more are at fault in the same way.
    pub more: usize,
}

impl Slip {
    pub fn new(what: impl Into<What>) -> Slip {
        Slip { what: Box::new(what.into()), part: String::new(), mends: Vec::new(), more: 0 }
    }

    /// Of a part of the value.
    pub fn at(self, part: impl Into<String>) -> Slip {
        Slip { part: part.into(), ..self }
    }

    pub fn with(self, mends: impl IntoIterator<Item = Mend>) -> Slip {
        Slip { mends: mends.into_iter().collect(), ..self }
    }

    /// The mends as parts of a value, between what stands before and after the part.
    pub fn between(mut self, before: &str, after: &str) -> Slip {
        for mend in &mut self.mends {
            mend.whole = Some(format!("{before}{}{after}", mend.whole()));
        }
        self
    }

    pub fn code(&self) -> &'static str {
        self.what.code()
    }
}

impl fmt::Display for Slip {
    fn fmt(&self, f: &mut fmt::Formatter) -> fmt::Result {
        match self.part.is_empty() {
            true => f.write_str(&words::of(self)),
            false => write!(f, "{}: {}", self.part, words::of(self)),
        }
    }
}

/// A slip and where it stands.
#[derive(Clone, Debug, PartialEq, Eq)]
pub struct Message {
    /// Counted from 1; none where a line is missing, and for a sheet.
    pub line: Option<usize>,
    /// Where it stands in a sheet or on the command line; else empty.
    pub place: String,
    /// The line's name.
    pub name: Option<Name>,
    /// The line, or the number of it, that the words are about; may be empty.
    pub subject: String,
    pub slip: Slip,
    /// Of the value; empty where there are none.
    pub limits: String,
    /// Whole lines, each in place of the line; where a line is missing, to be added.
    pub fixes: Vec<String>,
}

/// Characters that are shown of a message at most.
const LONGEST: usize = 500;

impl Message {
    /// Without a line; with the name that the slip itself has.
    pub fn new(slip: Slip) -> Message {
        let name = slip.what.name();
        Message {
            line: None,
            place: String::new(),
            name,
            subject: String::new(),
            slip,
            limits: name.map_or("", Name::limits).to_string(),
            fixes: Vec::new(),
        }
    }

    /// What is wrong, the limits and the mend.
    pub fn words(&self) -> String {
        let slip = match self.subject.is_empty() {
            true => self.slip.to_string(),
            false => format!("{}: {}", self.subject, self.slip),
        };
        let limits = match self.slip.what.is_of_value() && !self.limits.is_empty() {
            true => words::limits(&self.limits),
            false => String::new(),
        };
        cut(&(slip + &limits), LONGEST)
    }

    /// "line 5", or the place.
    pub fn position(&self) -> String {
        self.line.map_or(self.place.clone(), words::line)
    }

    /// `FILE:LINE: words`, or the place where there is no line.
    pub fn shown(&self, file: &str) -> String {
        at(file, self.line, &self.place, &self.words())
    }

    /// The fields of its object but for its words.
    pub fn fields(&self) -> Vec<(&'static str, String)> {
        let fixes: Vec<String> = self.fixes.iter().map(|fix| json::string(fix)).collect();
        vec![
            ("code", json::string(self.slip.code())),
            ("line", json::or_null(self.line.map(|line| line.to_string()))),
            ("name", json::or_null(self.name.map(|name| json::string(name.word())))),
            ("limits", json::string(&self.limits)),
            ("fixes", format!("[{}]", fixes.join(", "))),
        ]
    }
}

/// Words about a line of a file, or about a place that may be empty.
pub fn at(file: &str, line: Option<usize>, place: &str, words: &str) -> String {
    match line {
        Some(line) => format!("{file}:{line}: {words}\n"),
        None if place.is_empty() => format!("{file}: {words}\n"),
        None => format!("{file}: {place}: {words}\n"),
    }
}

/// The text, or its first characters and two points.
pub fn cut(text: &str, most: usize) -> String {
    match text.char_indices().nth(most) {
        Some((end, _)) => format!("{} ..", &text[..end]),
        None => text.to_string(),
    }
}
