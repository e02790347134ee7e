//! What a file holds: a silo's text, a sheet of bytes, or something else.

use crate::files;
use crate::message::{Bytes, Message, Slip};
use crate::text;

pub enum Content {
    Sheet,
    Text,
    /// Another program's file or an output of this one.
    Foreign(Bytes),
}

/// The first bytes of other programs' files. No sheet starts so: its first byte is 4 or 8.
const FOREIGN: [(&[u8], &str); 10] = [
    (b"PK\x03\x04", "a zip archive"),
    (b"\xd0\xcf\x11\xe0", "an old Word or Excel file"),
    (b"%PDF", "a PDF file"),
    (b"{\\rtf", "a rich-text file"),
    (b"\x89PNG", "a picture"),
    (b"\xff\xd8\xff", "a picture"),
    (b"\x1f\x8b", "a compressed file"),
    (b"\x7fELF", "a program"),
    (b"<", "a drawing, a web page or an XML file"),
    (b"{", "a JSON file"),
];

/// Names inside a zip archive that tell whose it is.
const ARCHIVES: [(&[u8], &str); 4] = [
    (b"word/", "a Word file"),
    (b"xl/", "an Excel file"),
    (b"opendocument.text", "a LibreOffice text"),
    (b"opendocument.spreadsheet", "a LibreOffice spreadsheet"),
];

/// The first bytes of a text in UTF-16, which has to be saved as UTF-8.
const UTF_16: [&[u8]; 2] = [b"\xff\xfe", b"\xfe\xff"];

impl Content {
    /// A sheet starts with byte 4 or 8. Other bytes with control characters are a sheet too, which the library refuses, unless a
    /// silo's text is seen between them. An empty file is an empty sheet.
    pub fn of(bytes: &[u8]) -> Content {
        if let Some(what) = foreign(bytes) {
            return Content::Foreign(what);
        }
        let is_text = !bytes.is_empty()
            && (!bytes.iter().any(is_control)
                || UTF_16.iter().any(|mark| bytes.starts_with(mark))
                || is_silo(bytes));
        if is_text {
            Content::Text
        } else {
            Content::Sheet
        }
    }
}

fn foreign(bytes: &[u8]) -> Option<Bytes> {
    match files::Kind::of(bytes) {
        Some(files::Kind::Sheet | files::Kind::Text) => return None,
        Some(kind) => return Some(Bytes::Output(kind.with_article())),
        None => (),
    }
    let starts = |start: &[u8]| bytes.starts_with(start);
    let (_, name) = FOREIGN.iter().find(|(start, _)| starts(start))?;
    let within = |part: &&[u8]| bytes.windows(part.len()).any(|window| window == *part);
    let archive = ARCHIVES.iter().find(|(part, _)| starts(FOREIGN[0].0) && within(part));
    let name = archive.map_or(name, |(_, name)| name);
    Some(Bytes::Foreign(name))
}

fn is_control(byte: &u8) -> bool {
    *byte < b' ' && !b"\t\n\r".contains(byte)
}

/// Without its control characters it is a silo's text.
fn is_silo(bytes: &[u8]) -> bool {
    let plain: Vec<u8> = bytes.iter().filter(|byte| !is_control(byte)).copied().collect();
    !bytes.starts_with(&[4, 0])
        && !bytes.starts_with(&[8, 0])
        && std::str::from_utf8(&plain).is_ok_and(text::is_silo)
}

/// The text of bytes that hold one, or the line that does not.
pub fn text(bytes: &[u8]) -> Result<&str, Vec<Message>> {
    let at = |place: usize, slip: Bytes| {
        let line = 1 + bytes[..place].iter().filter(|byte| **byte == b'\n').count();
        vec![Message { line: Some(line), ..Message::new(Slip::new(slip)) }]
    };
    let text =
        std::str::from_utf8(bytes).map_err(|error| at(error.valid_up_to(), Bytes::NotUtf8))?;
    match bytes.iter().position(is_control) {
        Some(place) => Err(at(place, Bytes::Control(bytes[place]))),
        None => Ok(text),
    }
}
