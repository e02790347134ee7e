//! A folder of a test's own, in which the program runs, and the bytes of every file in it afterwards.
#![allow(dead_code)]

use crate::common::sample;
use std::collections::BTreeMap;
use std::ffi::OsString;
use std::fs;
use std::os::unix::fs::MetadataExt;
use std::path::{Path, PathBuf};
use std::process::{Command, Output};

/// A folder of a test's own, in which the program runs.
pub struct Folder(pub PathBuf);

/// Each name with where it leads, as a link, or its bytes.
pub type State = BTreeMap<OsString, (Option<PathBuf>, Vec<u8>)>;

impl Folder {
    pub fn new(name: &str) -> Folder {
        let path = Path::new(env!("CARGO_TARGET_TMPDIR")).join("files").join(name);
        if path.exists() {
            fs::remove_dir_all(&path).expect("an old folder");
        }
        fs::create_dir_all(&path).expect("a folder");
        Folder(path)
    }

    /// With a silo's text `w.silo`.
    pub fn with_silo(name: &str) -> Folder {
        let folder = Folder::new(name);
        folder.put("w.silo", &sample("wheat-tower.silo"));
        folder
    }

    pub fn path(&self, name: &str) -> PathBuf {
        self.0.join(name)
    }

    pub fn put(&self, name: &str, bytes: &[u8]) {
        fs::write(self.path(name), bytes).expect(name);
    }

    pub fn get(&self, name: &str) -> Vec<u8> {
        fs::read(self.path(name)).expect(name)
    }

    /// Everything in the folder, hidden files too.
    pub fn state(&self) -> State {
        let entries = self.0.read_dir().expect("the folder").map(|entry| entry.expect("an entry"));
        let state = entries.map(|entry| {
            let link = fs::read_link(entry.path()).ok();
            (entry.file_name(), (link, fs::read(entry.path()).unwrap_or_default()))
        });
        state.collect()
    }

    pub fn silo(&self, arguments: &[&str]) -> Command {
        let mut command = Command::new(env!("CARGO_BIN_EXE_silo"));
        command.current_dir(&self.0).args(arguments);
        command
    }

    /// A device with that minor number under major 1. The superuser, who could break the machine's
    /// own one, gets one in this folder, if the system allows that.
    pub fn device(&self, name: &str, minor: u32) -> Option<String> {
        if fs::metadata(&self.0).expect("the folder").uid() != 0 {
            return Some(format!("/dev/{name}"));
        }
        let script = format!("mknod {name} c 1 {minor} && : >{name}");
        output(&mut bash(self, &script)).status.success().then(|| name.to_string())
    }

    /// A run that ends with status 2 and these words, and leaves everything as it was.
    pub fn refuses(&self, command: &mut Command, words: &str) {
        let before = self.state();
        let (status, said) = ended(command);
        assert_eq!(status, 2, "{command:?}: {said}");
        assert!(said.contains(words), "{command:?}: {words}: {said}");
        assert!(before == self.state(), "{command:?} changed a file");
    }

    /// A run that ends well and changes this file alone, with a copy of the old one if it says so; what it says of it.
    pub fn writes(&self, arguments: &[&str], file: &str) -> String {
        let mut before = self.state();
        let (status, said) = ended(&mut self.silo(arguments));
        assert_eq!(status, 0, "{arguments:?}: {said}");
        let mut after = self.state();
        let [file, copy] = [file.to_string(), format!("{file}~")].map(OsString::from);
        let old = before.remove(&file).map(|(_, bytes)| bytes);
        assert!(after.remove(&file).is_some_and(|(_, bytes)| !bytes.is_empty()));
        if said.ends_with(&format!("; the old one is {}\n", copy.display())) {
            before.remove(&copy);
            assert_eq!(after.remove(&copy).map(|(_, bytes)| bytes), old, "{arguments:?}");
        }
        assert!(before == after, "{arguments:?} changed another file");
        said
    }

    /// What a run that ends well prints.
    pub fn prints(&self, arguments: &[&str]) -> Vec<u8> {
        let output = output(&mut self.silo(arguments));
        assert!(output.status.success(), "{arguments:?}: {output:?}");
        output.stdout
    }
}

pub fn output(command: &mut Command) -> Output {
    command.output().expect("the program runs")
}

/// Status and messages of a run that prints nothing.
pub fn ended(command: &mut Command) -> (i32, String) {
    let Output { status, stdout, stderr } = output(command);
    assert_eq!(String::from_utf8_lossy(&stdout), "", "{command:?}");
    (status.code().expect("no signal"), String::from_utf8(stderr).expect("UTF-8"))
}

/// The program in bash, which may set limits first; `$silo` is the program.
pub fn bash(folder: &Folder, script: &str) -> Command {
    let mut command = Command::new("bash");
    command.current_dir(&folder.0).env("silo", env!("CARGO_BIN_EXE_silo"));
    command.args(["-c", script]);
    command
}
