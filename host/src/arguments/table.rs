//! The commands and the options of the command line, in one table: the parser and the help are made from it.

/// A command.
pub struct Command {
    pub name: &'static str,
    /// What follows the name, in the help.
    pub usage: &'static str,
    pub purpose: &'static str,
    /// The endings of the files that it reads, the usual one first; none where it reads no file.
    pub reads: &'static [&'static str],
    /// Names of `OPTIONS` that it takes.
    pub options: &'static [&'static str],
}

pub struct Choice {
    pub name: &'static str,
    /// What follows the name, in the help; empty where nothing does.
    pub value: &'static str,
    pub purpose: &'static str,
}

const SILO: &[&str] = &["silo", "sheet"];

/// The first that takes all options of a command line is the one that is offered where none is named.
pub const COMMANDS: [Command; 8] = [
    Command {
        name: "loads",
        usage: "FILE",
        purpose: "the loads as tables, or as --csv, --csv-semicolon or --json",
        reads: SILO,
        options: &["--csv", "--csv-semicolon", "--json", "--kpa", "--strict", "-o", "--force"],
    },
    Command {
        name: "check",
        usage: "FILE",
        purpose: "whether it can be calculated, and its lines as they were understood; or as --json",
        reads: SILO,
        options: &["--json", "--strict"],
    },
    Command {
        name: "page",
        usage: "FILE",
        purpose: "the load page for the folder, plain text",
        reads: SILO,
        options: &["--strict", "-o", "--force"],
    },
    Command {
        name: "patch",
        usage: "FILE --depth 8 m",
        purpose: "the patch load round the shell of a circle at that depth, by degrees, with its force; on concrete or with stiffeners on squares; or as --csv, --csv-semicolon or --json",
        reads: SILO,
        options: &["--csv", "--csv-semicolon",
            "--json", "--kpa", "--depth", "--all", "--strict", "-o", "--force"],
    },
    Command {
        name: "draw",
        usage: "FILE -o FILE.svg",
        purpose: "the silo to scale beside its pressures; with --depth 8 m the patch round the shell",
        reads: SILO,
        options: &["--kpa", "--depth", "--strict", "-o", "--force"],
    },
    Command {
        name: "sheet",
        usage: "FILE.silo -o FILE.sheet",
        purpose: "the sheet of bytes that a text says",
        reads: &["silo"],
        options: &["--strict", "-o", "--force"],
    },
    Command {
        name: "explain",
        usage: "FILE.sheet",
        purpose: "a sheet of bytes as text",
        reads: &["sheet"],
        options: &["--strict", "-o", "--force"],
    },
    Command {
        name: "catalogue",
        usage: "",
        purpose: "the products of table 7.1, or as --csv, --csv-semicolon or --json",
        reads: &[],
        options: &["--csv", "--csv-semicolon", "--json", "-o", "--force"],
    },
];

pub const OPTIONS: [Choice; 9] = [
    Choice {
        name: "-o",
        value: "FILE",
        purpose: "write to FILE, whose name ends in .svg for a drawing, .sheet, .txt for tables, .page or .txt for a page, .csv, .json or .silo, \
                  or has no ending; an old page or sheet, which names no silo, is left beside as FILE~",
    },
    Choice {
        name: "--force",
        value: "",
        purpose: "replace FILE even if it is of another silo, is a CSV that was changed, is a silo's text or holds something else than what the \
                  command writes, and leave no FILE~; never the file that is read",
    },
    Choice { name: "--csv", value: "", purpose: "for a spreadsheet, with commas between cells" },
    Choice {
        name: "--csv-semicolon",
        value: "",
        purpose: "the same with semicolons, and decimals with a comma",
    },
    Choice { name: "--json", value: "", purpose: "for a program" },
    Choice {
        name: "--kpa",
        value: "",
        purpose: "loads, patch and draw: kPa, kN/m and kN in place of Pa, N/m and N",
    },
    Choice {
        name: "--depth",
        value: "8 m",
        purpose: "where the patch acts, below the brim, in mm, cm or m; also --depth=8m",
    },
    Choice { name: "--all", value: "", purpose: "patch: every degree in place of every tenth" },
    Choice { name: "--strict", value: "", purpose: "exit status 3 where the silo is improbable" },
];

/// The command of that name.
pub fn command(name: &str) -> Option<&'static Command> {
    COMMANDS.iter().find(|command| command.name == name)
}

/// The option of that name.
pub fn option(name: &str) -> Option<&'static Choice> {
    OPTIONS.iter().find(|option| option.name == name)
}
