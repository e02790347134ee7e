//! The lines of a silo's text: name, value, and the comment behind it.

use crate::message::Mend;
use crate::name::Name;

/// A line with a known name.
#[derive(Clone, Debug, PartialEq, Eq)]
pub struct Line {
    /// Counted from 1.
    pub number: usize,
    pub name: Name,
    /// Without white space round it.
    pub value: String,
    /// What stands before the value, the equals sign last, and what stands behind it.
    before: String,
    after: String,
}

impl Line {
    /// A line that is cut at its equals sign; `after` starts at the white space before a comment.
    pub fn new(number: usize, name: Name, line: &str, value: &str) -> Line {
        let start = value.as_ptr() as usize - line.as_ptr() as usize;
        let (before, behind) = line.split_at(start);
        let after = behind[value.len()..].trim_end();
        let [value, before, after] = [value, before, after].map(String::from);
        Line { number, name, value, before, after }
    }

    /// The words behind `#`.
    pub fn comment(&self) -> &str {
        self.after.trim_start().trim_start_matches('#').trim()
    }

    /// The line as a comment.
    pub fn left_out(&self) -> String {
        format!("# {}{}{}", self.before, self.value, self.after)
    }

    /// The line with another value, and another name where the mend has one.
    pub fn mended(&self, mend: &Mend) -> String {
        let value = mend.whole();
        match mend.name {
            Some(name) => format!("{} = {value}{}", name.word(), self.after),
            None if self.before.ends_with('=') => format!("{} {value}{}", self.before, self.after),
            None => format!("{}{value}{}", self.before, self.after),
        }
    }
}
