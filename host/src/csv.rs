//! The loads as separated values: rows of the silo's description, one header, a row for each depth, for the floor or each quarter of
//! the hopper's slope, for each strake's lower edge, and the notes. The patch of a circle likewise, with a row for each degree and for
//! the force, or for each square. Every row of a page has as many cells. The last is the check row: a number made of all bytes before it.

mod made;

use crate::capacity;
use crate::crc::crc32;
use crate::description::Section;
use crate::fraction::{Fraction, DIGITS};
use crate::library::{self, Loads, ROW};
use crate::number::{hundredths, tenths};
use crate::patch::Patch;
use crate::report::{Report, BLANK_ANGLE, PROGRAM};
use crate::strake::{self, Strake};
use crate::text;

/// How spreadsheets of a country write tables.
#[derive(Clone, Copy)]
pub struct Dialect {
    separator: char,
    decimal: char,
    /// A byte order mark, by which spreadsheets know UTF-8.
    mark: &'static str,
}

pub const COMMA: Dialect = Dialect { separator: ',', decimal: '.', mark: "" };
/// For spreadsheets whose decimals have a comma.
pub const SEMICOLON: Dialect = Dialect { separator: ';', decimal: ',', mark: "\u{feff}" };

/// Part and number, the columns of a depth's row, floor, P_n and P_t, then a strake's height and p_he + p_p.
const CELLS: usize = 2 + ROW + 3 + 2;
const Z: usize = 2;
const P_HE: usize = Z + library::P_HE;
const P_P: usize = Z + library::P_P;
const FLOOR: usize = Z + ROW;
const HEIGHT: usize = FLOOR + 3;
const WITH_PATCH: usize = HEIGHT + 1;
/// Of a patch: part and number, p_ps and F_p.
const PATCH_CELLS: usize = 4;
/// How the check row starts.
const CHECK: &str = "check";

/// Whether a page is to the byte as it was written; none where its last row is no check row.
pub fn is_as_written(page: &str) -> Option<bool> {
    let rows = page.strip_suffix('\n')?;
    let last = rows.rfind('\n')? + 1;
    let check = rows[last..].strip_prefix(CHECK)?.strip_prefix([',', ';'])?;
    let number: u32 = check.trim_end_matches([',', ';', '\r']).parse().ok()?;
    Some(number == crc32(&page.as_bytes()[..last]))
}

impl Dialect {
    /// The mark, and the first line.
    pub fn page(self, cells: impl IntoIterator<Item = String>) -> String {
        self.mark.to_string() + &self.line(cells)
    }

    pub fn line(self, cells: impl IntoIterator<Item = String>) -> String {
        let cells: Vec<String> = cells.into_iter().collect();
        cells.join(&self.separator.to_string()) + "\n"
    }

    /// The page with its check row, of so many cells.
    pub fn checked(self, page: String, cells: usize) -> String {
        let rest = vec![String::new(); cells - 2];
        let check = [CHECK.to_string(), crc32(page.as_bytes()).to_string()];
        page + &self.line(check.into_iter().chain(rest))
    }

    /// A number with a decimal point, or a whole one.
    pub fn number(self, written: &str) -> String {
        written.replace('.', &self.decimal.to_string())
    }

    /// Text in quotes where it needs them. A spreadsheet would work out what starts as a formula, so an apostrophe stands before it.
    pub fn text(self, text: &str) -> String {
        let formula = text.starts_with(['=', '+', '-', '@', '\t', '\r']);
        let text = if formula { format!("'{text}") } else { text.to_string() };
        match text.contains([self.separator, '"', '\n', '\r']) {
            true => format!("\"{}\"", text.replace('"', "\"\"")),
            false => text,
        }
    }
}

/// Rows of so many cells each.
#[derive(Clone, Copy)]
struct Rows {
    dialect: Dialect,
    cells: usize,
}

impl Rows {
    /// A row that starts with its part and a number or name, then cells at their places, the others empty.
    fn part(self, part: &str, number: impl ToString, rest: &[(usize, String)]) -> String {
        let mut cells = vec![String::new(); self.cells];
        cells[0] = part.to_string();
        cells[1] = number.to_string();
        for (place, cell) in rest {
            cells[*place] = cell.clone();
        }
        self.dialect.line(cells)
    }

    /// A name, a value and a unit.
    fn fact(self, name: &str, value: String, unit: &str) -> String {
        self.part("silo", name, &[(2, value), (3, unit.to_string())])
    }

    /// An exact value to so many digits, its unit, and the fraction from which it is rounded, in the unit's cell where there is none.
    fn exact(self, name: &str, value: Fraction, digits: usize, unit: &str) -> String {
        let number = self.dialect.number(&value.to(digits));
        let rounded = match value.ends_within(digits) {
            true => String::new(),
            false => format!("rounded from {}/{}", value.top, value.bottom),
        };
        match unit.is_empty() || rounded.is_empty() {
            true => self.fact(name, number, &format!("{unit}{rounded}")),
            false => self.part("silo", name, &[(2, number), (3, unit.to_string()), (4, rounded)]),
        }
    }

    fn notes(self, notes: &[String]) -> String {
        let note =
            |(i, note): (usize, &String)| self.part("note", i + 1, &[(2, self.dialect.text(note))]);
        notes.iter().enumerate().map(note).collect()
    }
}

pub fn page(report: &Report, loads: &Loads, dialect: Dialect) -> String {
    let rows = Rows { dialect, cells: CELLS };
    let mut page = dialect.mark.to_string() + &description(report, rows) + &head(report, rows);
    for (i, numbers) in loads.rows().enumerate() {
        let row = report.row(&numbers);
        let cells = row.iter().enumerate().map(|(i, cell)| (Z + i, dialect.number(cell)));
        page += &rows.part("depth", i + 1, &cells.collect::<Vec<_>>());
    }
    page += &bottom(report, loads, rows);
    page += &strakes(report, loads, rows);
    page += &made::rows(report, loads, rows);
    let of_order = capacity::notes(report).into_iter().map(str::to_string);
    let notes: Vec<String> = report.notes().into_iter().chain(of_order).collect();
    dialect.checked(page + &rows.notes(&notes), CELLS)
}

fn strakes(report: &Report, loads: &Loads, rows: Rows) -> String {
    let load = |load: u32| rows.dialect.number(&report.units.show(load));
    let strake = |(i, strake): (usize, &Strake)| {
        let cells = [
            (Z, strake.edge.to_string()),
            (P_HE, load(strake.p_he)),
            (P_P, load(strake.p_p)),
            (HEIGHT, strake.height.to_string()),
            (WITH_PATCH, load(strake.with_patch())),
        ];
        rows.part("strake", i + 1, &cells)
    };
    strake::strakes(report, loads).iter().enumerate().map(strake).collect()
}

fn head(report: &Report, rows: Rows) -> String {
    let pressure = report.units.pressure();
    let more = ["floor", "P_n", "P_t"].map(|name| (name, pressure));
    let strake = [("height", "mm"), ("p_he + p_p", pressure)];
    let columns = report.columns().into_iter().chain(more).chain(strake);
    let cells = columns.map(|(name, unit)| format!("{name} ({unit})")).enumerate();
    rows.part("part", "number", &cells.map(|(i, cell)| (Z + i, cell)).collect::<Vec<_>>())
}

fn bottom(report: &Report, loads: &Loads, rows: Rows) -> String {
    let load = |load: u32| rows.dialect.number(&report.units.show(load));
    if report.silo.is_flat() {
        let foot = (Z, report.silo.wall_height().to_string());
        return rows.part("floor", 1, &[foot, (FLOOR, load(loads.floor()))]);
    }
    let quarter = |(k, normal, tangential): (usize, u32, u32)| {
        rows.part("hopper", k, &[(FLOOR + 1, load(normal)), (FLOOR + 2, load(tangential))])
    };
    loads.hopper().map(quarter).collect()
}

/// The heads of a patch's pressures: round a shell, and on squares.
const PATCH_HEADS: [&str; 2] = ["p_ps (", "p_p outward ("];

/// A page's header is that of a patch.
pub fn has_patch(page: &str) -> bool {
    PATCH_HEADS.iter().any(|head| page.contains(head))
}

/// The patch of a circle: rows of its description, one header, a row for every degree that is listed and the force, or a row for each
/// square.
pub fn patch(patch: &Patch, step: usize, dialect: Dialect) -> String {
    let rows = Rows { dialect, cells: PATCH_CELLS };
    let units = patch.report.units;
    let head = |head: &str| format!("{head}{})", units.pressure());
    let page = dialect.mark.to_string() + &description(&patch.report, rows) + &band(patch, rows);
    let pressures = match patch.is_round() {
        true => {
            let force = format!("F_p ({})", units.force());
            rows.part("part", "number", &[(2, head(PATCH_HEADS[0])), (3, force)])
                + &round(patch, step, rows)
        }
        false => {
            let pressure = dialect.number(&units.show(patch.pressure()));
            let square = |number| rows.part("square", number, &[(2, pressure.clone())]);
            rows.part("part", "number", &[(2, head(PATCH_HEADS[1]))]) + &square(1) + &square(2)
        }
    };
    dialect.checked(page + &pressures + &rows.notes(&patch.notes()), PATCH_CELLS)
}

fn round(patch: &Patch, step: usize, rows: Rows) -> String {
    let units = patch.report.units;
    let degree = |(degree, pressure): (usize, i32)| {
        rows.part("degree", degree, &[(2, rows.dialect.number(&units.signed(pressure)))])
    };
    let degrees: String = patch.every(step).map(degree).collect();
    let force = rows.dialect.number(&units.show(patch.shell.force()));
    degrees + &rows.part("force", 1, &[(3, force)])
}

/// Where the patch acts, and its greatest pressure.
fn band(patch: &Patch, rows: Rows) -> String {
    let units = patch.report.units;
    let length = |number: u64| rows.dialect.number(&tenths(number));
    let (from, to) = patch.band();
    let [upper, lower] = match patch.is_round() {
        true => ["band from", "band to"],
        false => ["squares from", "squares to"],
    };
    let below = patch.below_surface().map(|depth| ("depth below the grain", depth.to_string()));
    let lengths = [("depth", patch.depth.to_string())].into_iter().chain(below).chain([
        ("s", length(patch.height())),
        (upper, length(from)),
        (lower, length(to)),
    ]);
    let lengths: String = lengths.map(|(name, value)| rows.fact(name, value, "mm")).collect();
    let pressure = rows.dialect.number(&units.show(patch.pressure()));
    lengths + &rows.fact("p_p", pressure, units.pressure()) + &made::patch(&patch.report, rows)
}

/// Rows of a name, a value and a unit: the order's own lines and the sheet's numbers.
fn description(report: &Report, rows: Rows) -> String {
    let (silo, dialect) = (report.silo, rows.dialect);
    let said = |name: &str, text: &str| rows.fact(name, dialect.text(text), "");
    let length = |name: &str, number: u64| rows.fact(name, number.to_string(), "mm");
    let labels: String = report.labels.iter().map(|(name, label)| said(name, label)).collect();
    let section = match silo.section {
        Section::Circle(d) => length("diameter", d.into()),
        Section::Rectangle(a, b) => length("side a", a.into()) + &length("side b", b.into()),
    };
    let headroom = Some(silo.headroom).filter(|headroom| *headroom > 0);
    let discharge = report.discharge();
    let fractions = discharge.fractions();
    let fractions = fractions.iter().map(|(name, value)| rows.exact(name, *value, DIGITS, ""));
    [
        said("program", PROGRAM),
        said("file", report.file),
        labels,
        section,
        product(report, rows),
        length("filling eccentricity", silo.filling_eccentricity.into()),
        length("outlet eccentricity", silo.outlet_eccentricity.into()),
        length("hopper height", silo.hopper_height.into()),
        length("hopper run", silo.hopper_run.into()),
        length("wall height", silo.wall_height()),
        rows.fact("strakes", dialect.text(&text::runs(&silo.strakes)), "mm"),
        headroom.map_or(String::new(), |headroom| length("headroom", headroom.into())),
        said("kind", discharge.shape.word()),
        fractions.collect(),
    ]
    .concat()
}

fn product(report: &Report, rows: Rows) -> String {
    let (product, dialect) = (&report.silo.product, rows.dialect);
    let ratio = |name: &str, number: u16, unit: &str| {
        rows.fact(name, dialect.number(&hundredths(number.into())), unit)
    };
    let factor = match product.factor {
        0 => {
            ratio("factor", product.factor_used(), &format!("for a blank one: {BLANK_ANGLE}"))
                + &ratio("factor on the sheet", 0, "blank")
        }
        factor => ratio("factor", factor, ""),
    };
    [
        rows.fact("product", dialect.text(&report.origin.shown(product)), ""),
        rows.fact("weight", product.weight.to_string(), "N/m3"),
        ratio("ratio", product.ratio, ""),
        ratio("friction", product.friction, ""),
        factor,
    ]
    .concat()
}
