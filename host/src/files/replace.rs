//! A file replaced as a whole: written beside and renamed, so that a full disk or a power cut leaves
//! the old one.

use super::{unwritten, without_reader};
use std::fs::{self, File, Metadata, OpenOptions};
use std::io::{self, ErrorKind, Write};
use std::os::unix::fs::{fchown, MetadataExt};
use std::path::{Path, PathBuf};

/// A whole new file under a name of its own, until it is put in its place; left out there, it goes.
pub struct New(PathBuf);

impl New {
    /// In the folder of the file whose place it takes, with the permissions of the old one. An error
    /// is in words, here and below.
    pub fn beside(path: &Path, old: Option<&Metadata>, bytes: &[u8]) -> Result<New, String> {
        let folder = folder(path);
        let (new, file) = create_in(folder).map_err(|error| in_folder(&error, folder))?;
        fill(&file, old, bytes).map_err(|error| in_folder(&error, folder))?;
        Ok(new)
    }

    pub fn put(self, path: &Path) -> Result<(), String> {
        fs::rename(&self.0, path).map_err(|error| in_folder(&error, folder(path)))
    }
}

impl Drop for New {
    fn drop(&mut self) {
        let _ = fs::remove_file(&self.0);
    }
}

pub fn replace(path: &Path, old: Option<&Metadata>, bytes: &[u8]) -> Result<(), String> {
    New::beside(path, old, bytes)?.put(path)
}

/// Writes to a device or a pipe.
pub fn pour(path: &Path, bytes: &[u8]) -> Result<(), String> {
    let stream = OpenOptions::new().write(true).open(path);
    let written = stream.and_then(|mut stream| without_reader(stream.write_all(bytes)));
    written.map_err(|error| unwritten(&error))
}

/// A new hidden file. One with a process's number may be left over from a power cut.
fn create_in(folder: &Path) -> io::Result<(New, File)> {
    let mut count = 0;
    loop {
        let path = folder.join(format!(".silo-{}-{count}.new", std::process::id()));
        match OpenOptions::new().write(true).create_new(true).open(&path) {
            Err(error) if error.kind() == ErrorKind::AlreadyExists && count < 100 => count += 1,
            opened => return opened.map(|file| (New(path), file)),
        }
    }
}

/// Writes to the disk, with the old file's permissions, and its owner where that is allowed.
fn fill(mut file: &File, old: Option<&Metadata>, bytes: &[u8]) -> io::Result<()> {
    file.write_all(bytes)?;
    if let Some(old) = old {
        let _ = fchown(file, Some(old.uid()), Some(old.gid()));
        if file.metadata()?.permissions() != old.permissions() {
            file.set_permissions(old.permissions())?;
        }
    }
    file.sync_all()
}

fn folder(path: &Path) -> &Path {
    match path.parent() {
        Some(folder) if !folder.as_os_str().is_empty() => folder,
        _ => Path::new("."),
    }
}

/// Why a file could not be written to a folder.
fn in_folder(error: &io::Error, folder: &Path) -> String {
    let shown = folder.display();
    match error.kind() {
        ErrorKind::NotFound if !folder.exists() => format!("there is no folder {shown}"),
        ErrorKind::NotFound | ErrorKind::PermissionDenied => {
            format!("you may not write to the folder {shown} ({error})")
        }
        _ => unwritten(error),
    }
}
