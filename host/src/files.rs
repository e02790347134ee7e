//! The files that a command reads and writes, so that none is lost.

mod held;
mod kind;
mod meant;
mod replace;
mod silo;
mod target;

pub use kind::Kind;
pub use meant::meant;
pub use target::{stays, Target};

use held::{Held, Replacement};
use silo::{Silo, STANDARD_INPUT};

use std::ffi::OsStr;
use std::fs::{File, Metadata};
use std::io::{self, ErrorKind, Read, Write};
use std::os::fd::AsFd;
use std::os::unix::fs::MetadataExt;

/// Bytes. A text or a sheet is far shorter, and so is all that the tool writes.
const LONGEST_FILE: u64 = 1 << 20;

/// A file that is open for reading.
pub struct Input {
    /// As messages and outputs show it.
    pub name: String,
    file: File,
    /// None where it is no regular file, such as a pipe.
    identity: Option<Identity>,
}

/// Device and inode: the same for every path and link that leads to a file.
type Identity = (u64, u64);

fn identity(metadata: &Metadata) -> Option<Identity> {
    metadata.is_file().then(|| (metadata.dev(), metadata.ino()))
}

/// A stream of this process as a file.
fn stream(stream: impl AsFd) -> io::Result<File> {
    Ok(File::from(stream.as_fd().try_clone_to_owned()?))
}

/// The name of a file as messages show it; `-` is standard input.
pub fn shown(name: &OsStr) -> String {
    match name == "-" {
        true => STANDARD_INPUT.to_string(),
        false => name.to_string_lossy().into_owned(),
    }
}

impl Input {
    /// `-` is standard input. An error is in words.
    pub fn open(name: &OsStr) -> Result<Input, String> {
        let file = match name == "-" {
            true => stream(io::stdin()),
            false => File::open(name),
        };
        let file = file.map_err(|error| unreadable(&error))?;
        let metadata = file.metadata().map_err(|error| unreadable(&error))?;
        match metadata.is_dir() {
            true => Err("a folder, where a file is due".to_string()),
            false => Ok(Input { name: shown(name), file, identity: identity(&metadata) }),
        }
    }

    pub fn read(&self) -> Result<Vec<u8>, String> {
        let bytes = whole(&self.file).map_err(|error| unreadable(&error))?;
        bytes.ok_or("over 1 MiB, longer than any silo's text or sheet".to_string())
    }

    pub fn is_empty(&self) -> bool {
        self.file.metadata().is_ok_and(|metadata| metadata.len() == 0)
    }

    fn is(&self, metadata: &Metadata) -> bool {
        self.identity.is_some() && self.identity == identity(metadata)
    }

    fn is_stream(&self, other: impl AsFd) -> bool {
        stream(other).and_then(|file| file.metadata()).is_ok_and(|metadata| self.is(&metadata))
    }

    /// What is printed would go into the file that is read.
    pub fn is_standard_output(&self) -> bool {
        self.is_stream(io::stdout())
    }

    /// A message would go into the file that is read.
    pub fn is_standard_error(&self) -> bool {
        self.is_stream(io::stderr())
    }
}

/// The bytes of a file that is not too long.
fn whole(file: &File) -> io::Result<Option<Vec<u8>>> {
    let mut bytes = Vec::new();
    file.take(LONGEST_FILE + 1).read_to_end(&mut bytes)?;
    Ok((bytes.len() as u64 <= LONGEST_FILE).then_some(bytes))
}

fn unreadable(error: &io::Error) -> String {
    match error.kind() {
        ErrorKind::NotFound => "there is no such file".to_string(),
        ErrorKind::PermissionDenied => format!("you may not read it ({error})"),
        _ => error.to_string(),
    }
}

/// Prints; an error is in words.
pub fn print(bytes: &[u8]) -> Result<(), String> {
    let mut output = io::stdout();
    let printed = without_reader(output.write_all(bytes).and_then(|()| output.flush()));
    printed.map_err(|error| format!("standard output: not all is written: {}", unwritten(&error)))
}

/// A reader that has gone away is no error.
fn without_reader(written: io::Result<()>) -> io::Result<()> {
    match written {
        Err(error) if error.kind() == ErrorKind::BrokenPipe => Ok(()),
        written => written,
    }
}

/// Why something could not be written.
fn unwritten(error: &io::Error) -> String {
    let words = match error.kind() {
        ErrorKind::StorageFull => "the disk is full",
        ErrorKind::QuotaExceeded => "your share of the disk is used up",
        ErrorKind::FileTooLarge => "it is longer than a file may be here",
        ErrorKind::PermissionDenied => "you may not write there",
        ErrorKind::ReadOnlyFilesystem => "the disk may only be read",
        _ => return error.to_string(),
    };
    format!("{words} ({error})")
}
