//! The script `run`, in a project of a test's own, with programs that note their calls in place of rt, cargo and gcc.

mod common;

use common::root;
use std::fs::{self, File, Permissions};
use std::os::unix::fs::{symlink, PermissionsExt};
use std::path::{Path, PathBuf};
use std::process::{Command, Output};
use std::time::{Duration, SystemTime};

const SOURCES: [&str; 7] = [
    "host/src/main.rs",
    "host/Cargo.toml",
    "silo-sys/build.rs",
    "Cargo.toml",
    "Cargo.lock",
    "crates/silo/src/lib.rt",
    "crates.txt",
];
const LIBRARY: &str = "target/staticlib/libsilo.a";
const TOOL: &str = "target/release/silo";
/// The script, and the one that it calls for the library.
const SCRIPTS: [&str; 2] = ["run", "tools/library"];
/// All that they call beside rt, cargo and gcc.
const SYSTEM: [&str; 11] =
    ["bash", "env", "dirname", "readlink", "find", "mkdir", "touch", "mv", "cp", "tee", "sleep"];

struct Project(PathBuf);

impl Project {
    /// Built, with sources of an hour ago.
    fn new(name: &str) -> Project {
        let path = Path::new(env!("CARGO_TARGET_TMPDIR")).join("run").join(name);
        if path.exists() {
            fs::remove_dir_all(&path).expect("an old project");
        }
        let project = Project(path);
        for source in SOURCES {
            project.put(source, "");
        }
        for folder in ["bin", "tools"] {
            fs::create_dir_all(project.path(folder)).expect(folder);
        }
        for script in SCRIPTS {
            fs::copy(root().join(script), project.path(script)).expect(script);
        }
        for program in SYSTEM {
            let found = std::env::split_paths(&std::env::var_os("PATH").expect("PATH"))
                .map(|folder| folder.join(program))
                .find(|path| path.exists());
            symlink(found.expect(program), project.path("bin").join(program)).expect(program);
        }
        project.program("bin/gcc", "true");
        let made = "echo rt $* >>../../calls; mkdir -p out; echo >out/libsilo.a";
        project.program("bin/rt", made);
        project.program("bin/cargo", "echo cargo >>calls; cp tool target/release/silo");
        project.program("tool", "echo tool $*; exit 1");
        project.put(LIBRARY, "");
        project.program(TOOL, "echo tool $*; exit 1");
        project.age();
        project
    }

    fn path(&self, name: &str) -> PathBuf {
        self.0.join(name)
    }

    /// After what was written before, as far as the clock of files tells.
    fn put(&self, name: &str, text: &str) {
        std::thread::sleep(Duration::from_millis(20));
        let path = self.path(name);
        fs::create_dir_all(path.parent().expect("a folder")).expect("folders");
        fs::write(path, text).expect(name);
    }

    fn program(&self, name: &str, script: &str) {
        self.put(name, &format!("#!/usr/bin/env bash\n{script}\n"));
        fs::set_permissions(self.path(name), Permissions::from_mode(0o755)).expect("a mode");
    }

    /// Sources are two hours old, the library and the tool one.
    fn age(&self) {
        let hours = |n: u64| SystemTime::now() - Duration::from_secs(3600 * n);
        let set = |name: &str, time| {
            File::open(self.path(name)).and_then(|file| file.set_modified(time)).expect(name)
        };
        for source in SOURCES {
            let folders = Path::new(source).ancestors().filter(|path| *path != Path::new(""));
            folders.for_each(|path| set(path.to_str().expect("UTF-8"), hours(3)));
        }
        [LIBRARY, TOOL].into_iter().zip([2, 1]).for_each(|(name, age)| set(name, hours(age)));
    }

    fn without(&self, programs: &[&str]) {
        for program in programs {
            fs::remove_file(self.path("bin").join(program)).expect(program);
        }
    }

    /// Runs the script from a folder; status, what it prints and what it says.
    fn run_in(&self, folder: &Path) -> (Option<i32>, String, String) {
        let mut command = Command::new(self.path("run"));
        let command =
            command.current_dir(folder).env("PATH", self.path("bin")).args(["loads", "a b"]);
        let Output { status, stdout, stderr } = command.output().expect("the script runs");
        let [stdout, stderr] = [stdout, stderr].map(|said| String::from_utf8(said).expect("UTF-8"));
        (status.code(), stdout, stderr)
    }

    /// A run that comes to the tool; which programs it called before.
    fn calls(&self) -> String {
        let (status, printed, said) = self.run_in(&self.0);
        assert_eq!((status, printed.as_str()), (Some(1), "tool loads a b\n"), "{said}");
        let calls = fs::read_to_string(self.path("calls")).unwrap_or_default();
        let _ = fs::remove_file(self.path("calls"));
        calls
    }
}

#[test]
fn what_is_built_needs_no_program() {
    let project = Project::new("built");
    project.without(&["rt", "cargo", "gcc"]);
    assert_eq!(project.calls(), "");
    let ended = (Some(1), "tool loads a b\n".to_string(), String::new());
    assert_eq!(project.run_in(Path::new("/")), ended, "from any folder");
    let link = project.path("bin/link");
    symlink(project.path("run"), &link).expect("a link");
    let by_link = Command::new(link).current_dir("/").env("PATH", project.path("bin")).output();
    assert_eq!(by_link.expect("the script runs").stdout, b"tool\n");
}

#[test]
fn a_changed_source_is_built_once() {
    let project = Project::new("changed");
    for source in SOURCES {
        project.age();
        let _ = fs::remove_file(project.path("target/release/.run-start"));
        project.put(source, "changed");
        let library = source.starts_with("crates");
        let calls = if library { "rt lib\ncargo\n" } else { "cargo\n" };
        assert_eq!(project.calls(), calls, "{source}");
        assert_eq!(project.calls(), "", "{source}");
    }
    for missing in [LIBRARY, TOOL] {
        project.age();
        fs::remove_file(project.path(missing)).expect(missing);
        assert!(project.calls().ends_with("cargo\n"), "{missing}");
    }
}

/// A proof, or the gate, may leave or remove what rt makes.
#[test]
fn what_rt_makes_is_no_source() {
    let project = Project::new("made");
    project.put("crates/silo/out/libsilo.a", "made");
    project.age();
    project.put("crates/silo/out/libsilo.a", "made anew");
    assert_eq!(project.calls(), "");
    fs::remove_dir_all(project.path("crates/silo/out")).expect("the folder");
    assert_eq!(project.calls(), "");
}

/// Cargo may find that nothing has to be done, and a source may be changed while it works.
#[test]
fn the_builds_start_counts() {
    let project = Project::new("start");
    project.program("bin/cargo", "echo cargo >>calls");
    project.put("Cargo.toml", "the same");
    assert_eq!(project.calls(), "cargo\n");
    assert_eq!(project.calls(), "");
    project.program(
        "bin/cargo",
        "echo cargo >>calls; sleep 0.05; touch host/src/main.rs target/release/silo",
    );
    project.put("Cargo.toml", "changed");
    assert_eq!(project.calls(), "cargo\n");
    project.program("bin/cargo", "echo cargo >>calls");
    assert_eq!(project.calls(), "cargo\n");
    assert_eq!(project.calls(), "");
}

#[test]
fn what_is_missing_is_said() {
    let project = Project::new("missing");
    let last = "run: nothing was built; install what is missing, or add its folder to PATH\n";
    let [rt, cargo, gcc] = [
        "run: rt is missing, which proves and builds the library\n",
        "run: cargo is missing, which builds the tool\n",
        "run: gcc is missing, which links it\n",
    ];
    let says = |words: &[&str]| {
        assert_eq!(project.run_in(&project.0), (Some(2), String::new(), words.concat()));
        assert!(!project.path("calls").exists(), "nothing was called");
    };
    project.put("host/src/main.rs", "changed");
    project.without(&["cargo"]);
    says(&[cargo, last]);
    project.without(&["gcc"]);
    says(&[cargo, gcc, last]);
    fs::remove_file(project.path(LIBRARY)).expect("the library");
    project.without(&["rt"]);
    says(&[rt, cargo, gcc, last]);
}

/// Status 2, and not that of a refusal, where a build fails.
#[test]
fn a_build_that_fails() {
    let project = Project::new("fails");
    project.put("host/src/main.rs", "wrong");
    project.program("bin/cargo", "echo error: line 1 >&2; exit 101");
    for _ in 0..2 {
        let ended = project.run_in(&project.0);
        assert_eq!(ended, (Some(2), String::new(), "error: line 1\n".to_string()));
    }
    project.put("crates.txt", "wrong");
    project.program("bin/rt", "echo error: line 2 >&2; exit 1");
    let (status, _, said) = project.run_in(&project.0);
    assert_eq!((status, said.ends_with("error: line 2\n")), (Some(2), true), "{said}");
}
