//! A file that holds a silo, as text or as a sheet of bytes, and why it gives no loads.

use crate::catalogue::{Origin, Wall};
use crate::content::{self, Content};
use crate::description::{Description, Section};
use crate::doubt::{self, Doubt};
use crate::library::Refusal;
use crate::message::{words, Bytes, Message, Slip};
use crate::number::millimetres;
use crate::place::{self, Place};
use crate::report::{Labels, Report, Said, PROGRAM};
use crate::text::{self, Text};
use crate::units::Units;
use crate::{form, json};

/// A silo with its sheet, and the text where it was written as one.
pub struct Source {
    pub silo: Description,
    pub sheet: Vec<u8>,
    origin: Origin,
    labels: Labels,
    text: Option<Text>,
}

pub enum Failure {
    Unread(Unread),
    Refused(Refused),
}

/// What is wrong with a file or a text that cannot be read, and how many messages more there are.
pub struct Unread {
    meaning: &'static str,
    messages: Vec<Message>,
    more: usize,
}

/// A refusal of the library, where in the file it comes from, and what else the tool reads as broken.
pub struct Refused {
    refusal: Refusal,
    messages: Vec<Message>,
    others: Vec<(Refusal, Message)>,
    /// How many others are not listed.
    more: usize,
    /// What cannot be judged yet.
    later: Option<String>,
}

/// The silo of a file, text or bytes.
pub fn open(bytes: &[u8]) -> Result<Source, Failure> {
    match Content::of(bytes) {
        Content::Sheet => open_sheet(bytes),
        Content::Text => open_text(bytes),
        Content::Foreign(what) => Err(Failure::foreign(what)),
    }
}

fn open_text(bytes: &[u8]) -> Result<Source, Failure> {
    let text = content::text(bytes).and_then(text::read);
    let text = text.map_err(|messages| Failure::Unread(messages.into()))?;
    let silo = text.description.clone();
    let (origin, labels) = (text.origin.clone(), text.labels.clone());
    Ok(Source { sheet: silo.to_bytes(), silo, origin, labels, text: Some(text) })
}

impl Failure {
    pub fn foreign(file: Bytes) -> Failure {
        Failure::Unread(vec![Message::new(Slip::new(file))].into())
    }

    /// What stands in the load page's place, as the program `load_page` prints it; nothing where there is no sheet.
    pub fn page(&self) -> String {
        match self {
            Failure::Unread(_) => String::new(),
            Failure::Refused(Refused { refusal: Refusal(number), .. }) => {
                format!("REFUSED {number}\n")
            }
        }
    }
}

pub fn open_sheet(sheet: &[u8]) -> Result<Source, Failure> {
    match Description::from_bytes(sheet) {
        Ok(silo) => {
            let (origin, labels) = (Origin::default(), Labels::new());
            Ok(Source { silo, sheet: sheet.to_vec(), origin, labels, text: None })
        }
        Err(refusal) => {
            let fault = form::fault(sheet).map(|fault| Message::new(Slip::new(fault)));
            let messages = fault.into_iter().collect();
            let others = Vec::new();
            Err(Failure::Refused(Refused { refusal, messages, others, more: 0, later: None }))
        }
    }
}

impl Source {
    /// What every output of a silo that the library accepts rests on.
    pub fn report<'a>(&'a self, file: &'a str, units: Units) -> Result<Report<'a>, Failure> {
        let Source { silo, origin, labels, text, .. } = self;
        let stiffened = text.as_ref().is_some_and(|text| text.stiffened);
        let said = Said { file, origin, stiffened, labels };
        let report = Report::of(silo, said, units).map_err(|refusal| self.refused(refusal))?;
        Ok(Report { of_sheet: text.is_none(), ..report })
    }

    /// What a sheet does not say of a circle of which the text says it.
    pub fn unsaid(&self) -> &'static str {
        let stiffened = self.text.as_ref().is_some_and(|text| text.stiffened);
        let circle = matches!(self.silo.section, Section::Circle(_));
        match circle && (stiffened || self.origin.wall == Some(Wall::Concrete)) {
            true => words::UNSAID,
            false => "",
        }
    }

    /// What is improbable in this silo, with the line that it comes from.
    pub fn doubts(&self) -> impl Iterator<Item = (Option<usize>, Doubt)> + '_ {
        let line = |name| self.text.as_ref().and_then(|text| text.line(name));
        let doubts = doubt::doubts(&self.silo, &self.origin).into_iter();
        doubts.map(move |doubt| (line(doubt.name), doubt))
    }

    /// The library's refusal with its places in this file, and the other limits that are broken.
    pub fn refused(&self, refusal: Refusal) -> Failure {
        self.refused_among(refusal, Vec::new())
    }

    /// The same of a patch round the shell at a depth that is given beside the file.
    pub fn patch_refused(&self, refusal: Refusal, depth: u32) -> Failure {
        let given = place::given_depth(depth, &self.silo).map(|limit| {
            let place = format!("--depth {}", millimetres(depth.into()));
            (Refusal::DEPTH, Message { place, ..Message::new(Slip::new(limit)) })
        });
        let section = place::rectangle(&self.silo);
        let section = section.map(|place| (Refusal::RECTANGLE, self.message(place)));
        self.refused_among(refusal, given.into_iter().chain(section).collect())
    }

    /// `own` are limits that the call has beyond those of the sheet, each broken and with its refusal.
    fn refused_among(&self, refusal: Refusal, own: Vec<(Refusal, Message)>) -> Failure {
        let places = place::places(refusal, &self.silo);
        let others = place::others(refusal, &self.silo);
        let (first, own): (Vec<_>, Vec<_>) =
            own.into_iter().partition(|(rule, _)| *rule == refusal);
        let messages = places.into_iter().map(|place| self.message(place));
        let messages: Vec<Message> =
            messages.chain(first.into_iter().map(|(_, message)| message)).collect();
        let others = others.into_iter().map(|(rule, place)| (rule, self.message(place)));
        let mut others: Vec<(Refusal, Message)> = others.chain(own).collect();
        let room = MOST_MESSAGES - messages.len();
        let more = others.len().saturating_sub(room);
        others.truncate(room);
        let later = place::later(&self.silo);
        Failure::Refused(Refused { refusal, messages, others, more, later })
    }

    /// A mend is offered where the number's own line stands in a text.
    fn message(&self, Place { field, slip }: Place) -> Message {
        let name = field.name();
        let text = self.text.as_ref();
        let own = text.and_then(|text| text.named(name));
        let fixes = own.map(|line| slip.mends.iter().map(|mend| line.mended(mend)).collect());
        let place = match text {
            Some(_) => String::new(),
            None => form::position(&self.silo, field),
        };
        Message {
            line: text.and_then(|text| text.line(name)),
            place,
            name: Some(name),
            subject: field.shown(&self.silo),
            limits: name.limits().to_string(),
            fixes: fixes.unwrap_or_default(),
            ..Message::new(slip)
        }
    }
}

/// Fields of `silo check`: the refusal, its meaning, the messages, how many more, and what is judged later.
type Fields = Vec<(&'static str, String)>;

fn fields(
    refusal: Option<Refusal>,
    meaning: &str,
    said: String,
    more: usize,
    later: &str,
) -> Fields {
    vec![
        ("refusal", json::or_null(refusal.map(|Refusal(number)| number.to_string()))),
        ("meaning", json::string(meaning)),
        ("messages", said),
        ("more", more.to_string()),
        ("later", json::string(later)),
    ]
}

/// A message of `silo check`, with the refusal that it is part of.
fn checked(refusal: Option<Refusal>, message: &Message) -> String {
    let refusal = json::or_null(refusal.map(|Refusal(number)| number.to_string()));
    let before = [("refusal", refusal), ("position", json::string(&message.position()))];
    let words = [("words", json::string(&message.words()))];
    json::object(&[&before[..], &message.fields(), &words].concat())
}

impl Failure {
    /// For a person.
    pub fn lines(&self, file: &str) -> String {
        match self {
            Failure::Unread(unread) => unread.lines(file),
            Failure::Refused(refused) => refused.lines(file),
        }
    }

    /// For a program.
    pub fn fields(&self) -> Fields {
        match self {
            Failure::Unread(Unread { meaning, messages, more }) => {
                let said = messages.iter().map(|message| checked(None, message));
                fields(None, meaning, json::lines(said), *more, "")
            }
            Failure::Refused(Refused { refusal, messages, others, more, later }) => {
                let first = messages.iter().map(|message| (*refusal, message));
                let others = others.iter().map(|(refusal, message)| (*refusal, message));
                let said = first.chain(others);
                let said = said.map(|(refusal, message)| checked(Some(refusal), message));
                let later = later.as_deref().unwrap_or("");
                fields(Some(*refusal), refusal.meaning(), json::lines(said), *more, later)
            }
        }
    }

    /// The same fields of a silo that is accepted.
    pub fn none() -> Fields {
        fields(None, "", json::lines(std::iter::empty()), 0, "")
    }
}

/// A message of the output, with where it stands.
fn object(before: &[(&str, String)], message: &Message) -> String {
    let said = [
        ("position", json::string(&message.position())),
        ("message", json::string(&message.words())),
    ];
    json::object(&[before, &said, &message.fields()].concat())
}

fn objects(messages: &[Message]) -> String {
    json::lines(messages.iter().map(|message| object(&[], message)))
}

impl Refused {
    pub fn lines(&self, file: &str) -> String {
        let Refusal(number) = self.refusal;
        let mut lines = format!("{file}: {}\n", words::refused(number, self.refusal.meaning()));
        lines.extend(self.messages.iter().map(|message| message.shown(file)));
        if !self.others.is_empty() {
            lines += &format!("{}\n", words::ALSO);
        }
        lines.extend(self.others.iter().map(|(_, message)| message.shown(file)));
        lines += &more(file, self.more);
        lines.extend(self.later.iter().map(|later| format!("{file}: {later}\n")));
        lines
    }

    pub fn json(&self, file: &str) -> String {
        let also = self
            .others
            .iter()
            .map(|(Refusal(number), message)| object(&[("refusal", number.to_string())], message));
        json::document(&[
            ("refusal", self.refusal.0.to_string()),
            ("meaning", json::string(self.refusal.meaning())),
            ("file", json::string(file)),
            ("program", json::string(PROGRAM)),
            ("where", objects(&self.messages)),
            ("also", json::lines(also)),
            ("more", self.more.to_string()),
            ("later", json::string(self.later.as_deref().unwrap_or(""))),
        ])
    }
}

/// At most so many messages are shown for one file.
const MOST_MESSAGES: usize = 20;

fn more(file: &str, count: usize) -> String {
    match count {
        0 => String::new(),
        count => format!("{file}: {}\n", words::more(count)),
    }
}

impl Unread {
    /// A file that could not be opened or read.
    pub fn file(why: &str) -> Unread {
        let message = Message::new(Slip::new(Bytes::Unreadable(why.to_string())));
        Unread { meaning: words::UNREADABLE_FILE, messages: vec![message], more: 0 }
    }

    /// A message a line.
    pub fn lines(&self, file: &str) -> String {
        let lines: String = self.messages.iter().map(|message| message.shown(file)).collect();
        lines + &more(file, self.more)
    }

    pub fn json(&self, file: &str) -> String {
        json::document(&[
            ("refusal", json::or_null(None)),
            ("meaning", json::string(self.meaning)),
            ("file", json::string(file)),
            ("program", json::string(PROGRAM)),
            ("where", objects(&self.messages)),
            ("more", self.more.to_string()),
        ])
    }
}

impl From<Vec<Message>> for Unread {
    fn from(mut messages: Vec<Message>) -> Unread {
        let more = messages.len().saturating_sub(MOST_MESSAGES);
        messages.truncate(MOST_MESSAGES);
        Unread { meaning: words::UNREADABLE_TEXT, messages, more }
    }
}
