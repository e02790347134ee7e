//! The foot of the page: what the loads leave out at the left, the title block at the right. Where the notes are higher than
//! the block, they go over the page's width above it.

use super::layout::{BOTTOM, LEFT, RIGHT};
use super::svg::{Svg, SMALL};
use super::wrap;
use crate::doubt;
use crate::report::{Report, PROGRAM};
use std::path::Path;

/// Widths of the title block to choose from: the first that leaves the foot lowest, give or take half
/// a line.
const WIDTHS: [f64; 5] = [400.0, 460.0, 520.0, 580.0, 640.0];
/// Between notes and title block.
const GAP: f64 = 24.0;
/// For the names at the left of the title block, and for the numbers of the notes.
const NAMES: f64 = 58.0;
const NUMBERS: f64 = 19.0;
/// From a line to the next, and what lowered letters add.
const LINE: f64 = 11.2;
const LOWERED: f64 = 1.2;
/// Between a row's text and its frame, above and below together.
const PADDING: f64 = 2.8;

/// A row of the title block, or a note: its name and its lines.
type Row = (String, Vec<String>);

/// The notes and the title block, for one width of the title block.
struct Foot {
    left: f64,
    notes_top: f64,
    notes: Vec<Row>,
    rows: Vec<Row>,
}

/// Of a line of the notes.
fn height(line: &str) -> f64 {
    LINE + if line.contains('_') { LOWERED } else { 0.0 }
}

impl Foot {
    fn of(report: &Report, notes: &[String], block: f64) -> Foot {
        let wrapped = |text: &str| wrap::lines(text, SMALL, |_| block - NAMES - 8.0);
        let rows = rows(report).into_iter().map(|(name, text)| (name.to_string(), wrapped(&text)));
        let rows = rows.collect();
        let mut foot = Foot { left: RIGHT - block, notes_top: BOTTOM, notes: Vec::new(), rows };
        let room = BOTTOM - foot.block_top() + LINE / 2.0;
        for above in 0.. {
            foot.notes = foot.wrapped(notes, above);
            let lines = foot.notes.iter().flat_map(|(_, lines)| lines);
            let heights: Vec<f64> = lines.map(|line| height(line)).collect();
            let (above, beside) = heights.split_at(above.min(heights.len()));
            let [above, beside] = [above, beside].map(|part| part.iter().sum::<f64>());
            if beside <= room {
                foot.notes_top = BOTTOM - above - if above > 0.0 { room } else { beside };
                break;
            }
        }
        foot
    }

    /// The notes, of which so many lines stand above the title block and the others beside it.
    fn wrapped(&self, notes: &[String], above: usize) -> Vec<Row> {
        let mut count = 0;
        let numbered = notes.iter().enumerate().map(|(i, note)| {
            let right = |line: usize| if count + line < above { RIGHT } else { self.left - GAP };
            let lines = wrap::lines(note, SMALL, |line| right(line) - LEFT - NUMBERS);
            count += lines.len();
            ((i + 1).to_string(), lines)
        });
        numbered.collect()
    }

    fn block_top(&self) -> f64 {
        BOTTOM - self.rows.iter().map(row_height).sum::<f64>()
    }

    fn top(&self) -> f64 {
        self.notes_top.min(self.block_top())
    }

    fn draw(&self, svg: &mut Svg) {
        let mut y = self.notes_top;
        for (number, lines) in &self.notes {
            svg.text("start small", (LEFT, y + LINE - 2.0), number);
            for line in lines {
                svg.text("start small", (LEFT + NUMBERS, y + LINE - 2.0), line);
                y += height(line);
            }
        }
        let mut y = self.block_top();
        for row in &self.rows {
            svg.line("rule", (self.left, y), (RIGHT, y));
            svg.text("start small", (self.left + 5.0, y + LINE - 0.4), &row.0);
            for (i, line) in row.1.iter().enumerate() {
                let y = y + LINE * (i + 1) as f64 - 0.4;
                svg.plain("start tight", (self.left + NAMES + 3.0, y), line);
            }
            y += row_height(row);
        }
        let names = self.left + NAMES;
        svg.line("rule", (names, self.block_top()), (names, BOTTOM));
        svg.rectangle("frame", (self.left, self.block_top()), (RIGHT, BOTTOM));
    }
}

/// Of a row of the title block.
fn row_height((_, lines): &Row) -> f64 {
    LINE * lines.len() as f64 + PADDING
}

/// The labels that the text has, the file and the program.
fn rows(report: &Report) -> Vec<(&'static str, String)> {
    let file = Path::new(report.file).file_name().unwrap_or(report.file.as_ref());
    let mut rows: Vec<(&str, String)> = report.labels.clone();
    rows.push(("file", file.to_string_lossy().into_owned()));
    rows.push(("program", PROGRAM.to_string()));
    rows
}

/// Draws the foot, with notes before the drawing's own; where it begins.
pub fn draw(svg: &mut Svg, report: &Report, notes: Vec<String>) -> f64 {
    let mut notes = doubt::drawn(&report.doubts(), notes);
    notes.push("Loads from the proved library, rounded up. Silo to scale.".to_string());
    let feet = WIDTHS.map(|width| Foot::of(report, &notes, width));
    let lowest = feet.iter().map(Foot::top).fold(f64::MIN, f64::max);
    let foot = feet.iter().find(|foot| foot.top() >= lowest - LINE / 2.0).unwrap_or(&feet[0]);
    foot.draw(svg);
    foot.top()
}
