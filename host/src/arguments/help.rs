//! The help, made from the table of commands and options.

use super::table::{COMMANDS, OPTIONS};
use silo::report::wrapped;

/// Columns of a terminal, and where the words begin that say what a command or an option is for.
const WIDTH: usize = 80;
const COMMAND: usize = 38;
const OPTION: usize = 19;

const HEAD: &str = "\
silo: wall loads of grain silos by ENV 1991-4, from a proved library

usage:
";

const FILES: &str = "
FILE is a silo's text or a sheet of bytes, told apart by the bytes: a sheet has
control characters (it starts with byte 4 or 8), a text has none. - is standard
input, and after -o standard output.
";

/// The part of the help about a silo's text.
const TEXT: &str = "\
A silo's text, one name = value unit a line, in any order; # starts a comment:
  diameter = 5000 mm            or  sides = 4000 x 6000 mm
  product = wheat               or  weight = 9.0 kN/m3
  wall = steel                      ratio = 0.55
                                    friction = your own mean
                                    factor =          blank: 1.55
  filling eccentricity = 0 mm
  outlet eccentricity = 500 mm
  floor = flat                  or  hopper height = 3000 mm
                                    hopper run = 1700 mm
  strakes = 8 x 2000 mm         or  3 x 1200, 2 x 1500 mm; top first
  depths = every 500 mm         or  0, 500, 1000 mm  or  strake edges
  headroom = 300 mm             or no such line: grain level with the brim
  stiffeners = yes              or no such line: none round the shell
Lengths are in mm, cm or m, or in feet and inches that are whole mm; weights in
N/m3 or kN/m3; a decimal has a point. Names may be French: diametre, viroles, ..
Beside product, a line weight, ratio, friction or factor replaces that number;
wall = corrugated needs friction, which table 7.1 does not have. Without
product, a factor left blank is taken as 1.55 (7.4 at an internal friction angle
of 40 degrees); a soft product, up to 30 degrees, needs factor = 1.35. A hopper
is also said by hopper angle = 45 deg or outlet width = 600 mm. Optional lines
for every output but a page: project, customer, place, author, date, revision,
note.
";

const TAIL: &str = "
examples:
  silo loads samples/wheat-tower.silo
  silo loads samples/barley-bin.silo --csv >barley.csv
  silo page samples/wheat-tower.silo -o wheat.page
  silo patch samples/wheat-tower.silo --depth 8 m --all --csv -o patch.csv
  silo draw samples/wheat-tower.silo --depth 8 m -o patch.svg
  silo draw samples/cement.silo -o cement.svg
  silo sheet samples/cement.silo -o cement.sheet
  silo explain cement.sheet

exit status: 0 done; 1 refused by the library, with the refusal's number,
meaning and place on standard error; 2 bad use, a text or a file that cannot be
read, or a file that cannot be written; 3 done, but with --strict there are
doubts. With --json, refusals and what cannot be read are an object on standard
output; page prints REFUSED and the number there, and the words on standard
error. With 1 or 2 the file after -o stays as it was, which is said with the
silo that it is of; but sheet writes a sheet that the library refuses.
";

pub fn page() -> String {
    let mut page = HEAD.to_string();
    for command in &COMMANDS {
        let words = format!("silo {} {}", command.name, command.usage);
        page += &row(words.trim_end(), command.purpose, COMMAND);
    }
    page += "  silo --help | --version\n\noptions:\n";
    for option in &OPTIONS {
        let words = format!("{} {}", option.name, option.value);
        page += &row(words.trim_end(), option.purpose, OPTION);
    }
    page += &row("--", "what follows is no option but a file, such as -1.silo", OPTION);
    format!("{page}{FILES}\n{TEXT}{TAIL}")
}

/// Words, and from a column on what they are for.
fn row(words: &str, purpose: &str, column: usize) -> String {
    let purpose = wrapped(purpose, WIDTH - column).join(&format!("\n{:column$}", ""));
    format!("{:column$}{purpose}\n", format!("  {words}"))
}
