//! The file that a person may have meant by a name under which there is none.

use std::ffi::{OsStr, OsString};
use std::path::Path;

/// A file of the same folder: the name with an ending, or with another one, in these capitals or in others.
pub fn meant(name: &OsStr, endings: &[&str]) -> Option<OsString> {
    let path = Path::new(name);
    let folder = path.parent().filter(|folder| !folder.as_os_str().is_empty());
    let entries = folder.unwrap_or(Path::new(".")).read_dir().ok()?.flatten();
    let files = entries.filter(|entry| entry.path().is_file()).map(|entry| entry.file_name());
    let mut files: Vec<OsString> = files.collect();
    files.sort();
    let whole = path.file_name()?.to_string_lossy();
    let [start, stem] = [whole.trim_end_matches('.'), &path.file_stem()?.to_string_lossy()];
    let ended = |start: &str| endings.iter().map(|ending| format!("{start}.{ending}")).collect();
    let names: [Vec<String>; 3] = [ended(start), vec![whole.to_string()], ended(stem)];
    let alike =
        |file: &OsString, name: &str| file.to_string_lossy().to_lowercase() == name.to_lowercase();
    let found = |name: &String| {
        let exactly = files.iter().find(|file| **file == **name);
        exactly.or_else(|| files.iter().find(|file| alike(file, name)))
    };
    let found = names.iter().flatten().find_map(found)?;
    Some(path.with_file_name(found).into_os_string())
}
