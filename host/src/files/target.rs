//! The file after `-o`: judged before anything is written, then replaced as a whole or left as it
//! was.

use super::replace::{pour, replace, New};
use super::{unwritten, Held, Input, Kind, Replacement, Silo};
use crate::number::in_threes;
use std::ffi::{OsStr, OsString};
use std::fs::{self, Metadata, OpenOptions};
use std::io::ErrorKind;
use std::os::unix::fs::FileTypeExt;
use std::path::{Path, PathBuf};

/// A file that may be written.
pub struct Target<'a> {
    name: &'a OsStr,
    kind: Kind,
    input: Option<&'a Input>,
    place: Place,
}

enum Place {
    New(PathBuf),
    Old(Old),
    /// A device or a pipe.
    Stream(PathBuf),
}

/// A regular file, behind all links, and what is to be kept of it.
struct Old {
    path: PathBuf,
    metadata: Metadata,
    replacement: Replacement,
}

const ANOTHER: &str = "choose another name, or --force replaces it";

impl<'a> Target<'a> {
    /// Refused in words: the file that is read, a name whose ending does not fit, and, unless
    /// forced, a file that holds something else.
    pub fn of(
        name: &'a OsStr,
        kind: Kind,
        input: Option<&'a Input>,
        force: bool,
    ) -> Result<Target<'a>, String> {
        let found = found(name)?;
        let shown = name.display();
        if found.as_ref().is_some_and(|old| input.is_some_and(|input| input.is(old))) {
            return Err(format!(
                "{shown}: this is the file that is read, and it stays as it is; \
                 choose another name after -o"
            ));
        }
        kind.fits(name)?;
        let path = PathBuf::from(name);
        let place = match found {
            None => Place::New(path),
            Some(old) if !old.is_file() => Place::Stream(path),
            Some(metadata) => {
                let path = path.canonicalize().map_err(|error| format!("{shown}: {error}"))?;
                may_be_written(&path, &metadata).map_err(|why| format!("{shown}: {why}"))?;
                let silo = input.and_then(|input| Silo::of_file(&input.name));
                let replacement = match force {
                    true => Ok(Replacement::Plain),
                    false => Held::by(&path).and_then(|held| held.replacement(kind, silo.as_ref())),
                };
                let replacement = replacement.map_err(|why| format!("{shown} {why}; {ANOTHER}"))?;
                Place::Old(Old { path, metadata, replacement })
            }
        };
        Ok(Target { name, kind, input, place })
    }

    /// What was written, in words, or why it was not.
    pub fn write(&self, bytes: &[u8]) -> Result<String, String> {
        let written = match &self.place {
            Place::New(path) => replace(path, None, bytes).map(|()| ("written", None)),
            Place::Old(old) => {
                self.replaced(old, bytes).map_err(|why| format!("{why}; the old file is as it was"))
            }
            Place::Stream(path) => pour(path, bytes).map(|()| ("written", None)),
        };
        let name = self.name.display();
        let (done, copy) = written.map_err(|why| format!("{name}: not written: {why}"))?;
        let copy = copy.map(|copy| format!("; the old one is {}", copy.display()));
        Ok(format!(
            "{name}: {} {done}, {} bytes{}",
            self.kind.word(),
            in_threes(&bytes.len().to_string(), ','),
            copy.unwrap_or_default()
        ))
    }

    /// Puts the new file in the old one's place; the old one's copy, if it needs one. Only when the new file is whole is a copy
    /// made, and only then the old one replaced.
    fn replaced(&self, old: &Old, bytes: &[u8]) -> Result<(&'static str, Option<PathBuf>), String> {
        let new = New::beside(&old.path, Some(&old.metadata), bytes)?;
        let copy = match old.replacement {
            Replacement::Plain => None,
            Replacement::WithCopy => self.copied(old, bytes)?,
        };
        new.put(&old.path)?;
        Ok((if old.metadata.len() > 0 { "replaced" } else { "written" }, copy))
    }

    /// A copy of the old file, unless it is equal to the new one: `NAME~` beside it, behind all links.
    fn copied(&self, old: &Old, bytes: &[u8]) -> Result<Option<PathBuf>, String> {
        let held = fs::read(&old.path).map_err(|error| unwritten(&error))?;
        if held == bytes {
            return Ok(None);
        }
        let name = if Path::new(self.name).is_symlink() { old.path.as_os_str() } else { self.name };
        let copy = PathBuf::from([name, OsStr::new("~")].into_iter().collect::<OsString>());
        let done = self.may_be_copy(&copy);
        let done = done.and_then(|()| replace(&copy, Some(&old.metadata), &held));
        match done {
            Ok(()) => Ok(Some(copy)),
            Err(why) => Err(format!("the old one is to be left as {}: {why}", copy.display())),
        }
    }

    /// Nothing is lost under the copy's name.
    fn may_be_copy(&self, copy: &Path) -> Result<(), String> {
        let found = match fs::symlink_metadata(copy) {
            Err(error) if error.kind() == ErrorKind::NotFound => return Ok(()),
            found => found.map_err(|error| unwritten(&error))?,
        };
        if !found.is_file() {
            return Err(format!("that is no plain file; {ANOTHER}"));
        }
        if self.input.is_some_and(|input| input.is(&found)) {
            return Err(format!("that is the file that is read; {ANOTHER}"));
        }
        may_be_written(copy, &found)?;
        let replacement = Held::by(copy).and_then(|held| held.replacement(self.kind, None));
        replacement.map(|_| ()).map_err(|why| format!("that {why}; {ANOTHER}"))
    }
}

/// What stays where an output was to go: that it stays, what it is and of which silo. None where no
/// file stands there.
pub fn stays(name: &OsStr) -> Option<String> {
    let path = Path::new(name);
    path.is_file().then(|| {
        let held = Held::by(path).ok().and_then(|held| held.words());
        let held = held.map(|words| format!(": {words}")).unwrap_or_default();
        format!("{} stays as it was{held}", name.display())
    })
}

/// What stands under a name, behind all links. A folder, a disk and a link to nothing are refused.
fn found(name: &OsStr) -> Result<Option<Metadata>, String> {
    let (path, shown) = (Path::new(name), name.display());
    let old = match fs::metadata(path) {
        Ok(old) => Some(old),
        Err(error) if error.kind() == ErrorKind::NotFound => None,
        Err(error) => return Err(format!("{shown}: not written: {}", unwritten(&error))),
    };
    if old.as_ref().is_some_and(|old| old.is_dir()) || name.as_encoded_bytes().ends_with(b"/") {
        return Err(format!("{shown}: a folder; after -o a file's name is due"));
    }
    if old.as_ref().is_some_and(|old| old.file_type().is_block_device()) {
        return Err(format!("{shown}: a disk; after -o a file's name is due"));
    }
    match fs::read_link(path) {
        Ok(to) if old.is_none() => Err(format!(
            "{shown}: a link to {}, which does not exist; choose another name",
            to.display()
        )),
        _ => Ok(old),
    }
}

/// Renaming needs only the folder's permission, but a write-protected file stays.
fn may_be_written(path: &Path, old: &Metadata) -> Result<(), String> {
    let opened = OpenOptions::new().write(true).open(path);
    let denied = opened.is_err_and(|error| error.kind() == ErrorKind::PermissionDenied);
    match denied || old.permissions().readonly() {
        true => Err("the file is write-protected; choose another name".to_string()),
        false => Ok(()),
    }
}
