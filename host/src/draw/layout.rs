//! Where the parts of the page stand, in pixels, and the scales from mm.

use super::shown::headroom;
use super::svg::{Point, SMALL};
use super::wrap::width;
use crate::description::Description;

/// The margins, at least 10 mm, which are 37.8.
pub const LEFT: f64 = 40.0;
pub const RIGHT: f64 = 1082.0;
pub const TOP: f64 = 38.0;
pub const BOTTOM: f64 = 755.0;
/// The silo stands between these: beside its tables, or above them where that makes it so many
/// times as large.
const SILO: Point = (134.0, 312.0);
const WIDE_SILO: Point = (134.0, 780.0);
const LARGER: f64 = 1.5;
/// Lines from the silo to the table are level as far as this.
pub const GUTTER: f64 = 335.0;
pub const TABLE: Point = (348.0, 811.0);
/// The columns of the strakes' table, from its left end: strake, height, edge, five pressures and a
/// sum; each is flush right.
const COLUMNS: [f64; 9] = [40.0, 86.0, 134.0, 187.0, 240.0, 293.0, 346.0, 399.0, 461.0];
/// From the arrow or the dimensions below a silo to the first row of a table below it, for the table's head.
const TABLE_HEAD: f64 = 89.0;
/// The chart's pressures go from left to right.
pub const CHART: Point = (833.0, 1019.0);
/// A wall drawn lower than this has a chart of its own scale, at most so high.
const LOWEST_CHART: f64 = 200.0;
const OWN_CHART: f64 = 360.0;
/// Between the lines of the tables, where there is room.
const LINE: f64 = 13.0;
/// Below this the tables have a smaller type.
const TIGHT: f64 = 12.0;
/// From this pressure on, Pa, numbers are wide.
pub const WIDE: u32 = 1_000_000;
/// So near the lines come together to stand beside the wall, and the chart with them.
const TIGHTEST: f64 = 10.5;
/// From the brim to the first row.
const FIRST: f64 = 8.0;
/// From the last strake's row to the hopper's first, for the head between them.
pub const HOPPER_HEAD: f64 = 43.0;
/// Below the outlet: arrow, dimensions and their texts.
const BELOW_OUTLET: f64 = 62.0;
/// Below a flat floor: arrow and eccentricity.
const BELOW_FLOOR: f64 = 30.0;
/// Below the last strake's row: the loads on a flat floor and at the wall's foot.
const FLOOR_LINES: f64 = 52.0;
/// Strakes drawn lower than this have no line between them.
const LOWEST_STRAKE: f64 = 2.0;
/// Points on the hopper's slope.
const POINTS: usize = 5;

pub struct Layout {
    /// The brim, in the silo and in the chart.
    pub brim: f64,
    /// Pixels for each mm of the silo.
    scale: f64,
    /// Pixels for each mm of depth in the chart.
    depth_scale: f64,
    /// V, mm
    pub wall: f64,
    /// The rows of the strakes, top first, and of the hopper's slope, from the wall's foot down.
    pub strake_rows: Vec<f64>,
    pub hopper_rows: Vec<f64>,
    line: f64,
    /// The ends between which the silo stands.
    ends: Point,
    /// The table's left end and the foot of its head.
    pub table: Point,
}

/// The silo's lines.
pub struct Outline {
    pub left: f64,
    pub right: f64,
    pub axis: f64,
    pub brim: f64,
    /// Of the grain, at the wall.
    pub surface: f64,
    pub foot: f64,
    /// The outlet's height and its ends; a flat floor's is the foot.
    pub outlet: f64,
    pub outlet_left: f64,
    pub outlet_right: f64,
}

impl Layout {
    /// Silo, tables and chart between the brim and `lowest`.
    pub fn of(silo: &Description, brim: f64, lowest: f64) -> Layout {
        let beside = Layout::beside(silo, SILO, brim, lowest);
        let above = Layout::above(silo, brim, lowest);
        let is_larger = above.scale >= LARGER * beside.scale;
        let mut layout = if is_larger { above } else { beside };
        layout.place_rows(silo, lowest);
        layout
    }

    /// A wide silo above its tables.
    fn above(silo: &Description, brim: f64, lowest: f64) -> Layout {
        let (wall, height) = (silo.wall_height() as f64, silo.built_height() as f64);
        let width = f64::from(silo.section.shorter_side());
        let ends = ends(silo, WIDE_SILO);
        let (below, bottom) = match silo.is_flat() {
            true => (BELOW_FLOOR, FLOOR_LINES),
            false => (BELOW_OUTLET, HOPPER_HEAD + LINE * POINTS as f64),
        };
        let rows = FIRST + LINE * (silo.strakes.len() - 1) as f64;
        let room = lowest - brim - below - TABLE_HEAD - rows - bottom;
        let scale = (room / height).min((ends.1 - ends.0) / width);
        Layout {
            brim,
            scale,
            depth_scale: own_scale(wall, lowest - brim),
            wall,
            strake_rows: Vec::new(),
            hopper_rows: Vec::new(),
            line: LINE,
            ends,
            table: (LEFT, brim + height * scale + below + TABLE_HEAD),
        }
    }

    /// The silo between its ends, at the left of its tables, whose rows have no places yet.
    pub fn beside(silo: &Description, widest: Point, brim: f64, lowest: f64) -> Layout {
        let (wall, height) = (silo.wall_height() as f64, silo.built_height() as f64);
        let width = f64::from(silo.section.shorter_side());
        let ends = ends(silo, widest);
        let (room, strakes) = (lowest - brim, silo.strakes.len() as f64);
        let (below, head, points) = match silo.is_flat() {
            true => (BELOW_FLOOR, FLOOR_LINES, 0),
            false => (BELOW_OUTLET, HOPPER_HEAD, POINTS),
        };
        let line = LINE.min((room - FIRST - head - 6.0) / (strakes - 1.0 + points as f64));
        let beside = head + line * points as f64;
        let scale =
            ((room - below) / height).min((room - beside) / wall).min((ends.1 - ends.0) / width);
        let beside_wall = (wall * scale - FIRST) / (strakes - 1.0);
        let rows_fit = beside_wall >= line.min(TIGHTEST);
        let is_aligned = rows_fit && wall * scale >= LOWEST_CHART;
        Layout {
            brim,
            scale,
            depth_scale: if is_aligned { scale } else { own_scale(wall, room) },
            wall,
            strake_rows: Vec::new(),
            hopper_rows: Vec::new(),
            line: if rows_fit { line.min(beside_wall) } else { line },
            ends,
            table: (TABLE.0, brim),
        }
    }

    /// Each row as near to its strake's edge or to its point of the slope as the others let it.
    fn place_rows(&mut self, silo: &Description, lowest: f64) {
        let edges: Vec<f64> = silo.edges().map(|(_, edge)| self.silo_y(edge as f64)).collect();
        let first = self.table.1 + FIRST;
        let last = self.silo_y(self.wall).max(first + self.line * (edges.len() - 1) as f64);
        self.strake_rows = apart(&edges, self.line, (first, last));
        if !silo.is_flat() {
            let points: Vec<f64> = self.slope(silo).iter().rev().map(|point| point.1).collect();
            let ends = (last + HOPPER_HEAD, lowest - 4.0);
            self.hopper_rows = apart(&points, self.line, ends);
        }
    }

    /// Silo and chart have one scale of depth.
    pub fn is_aligned(&self) -> bool {
        self.scale == self.depth_scale
    }

    /// The table stands beside the silo, and lines lead to it.
    pub fn is_beside(&self) -> bool {
        self.table.0 == TABLE.0
    }

    /// Lines lead from the strakes' edges to their rows, or from the points of the slope.
    pub fn has_strake_leaders(&self, silo: &Description) -> bool {
        let edges: Vec<f64> = silo.edges().map(|(_, edge)| self.silo_y(edge as f64)).collect();
        let are_drawn = (0..edges.len()).all(|strake| self.has_edge(silo, strake));
        let rows = &self.strake_rows;
        self.is_beside() && are_drawn && !rows.is_empty() && can_be_followed(&edges, rows)
    }

    pub fn has_hopper_leaders(&self, silo: &Description) -> bool {
        let points: Vec<f64> = self.slope(silo).iter().rev().map(|point| point.1).collect();
        self.is_beside() && can_be_followed(&points, &self.hopper_rows)
    }

    /// The columns of the strakes' table; each is flush right.
    pub fn columns(&self) -> [f64; COLUMNS.len()] {
        COLUMNS.map(|x| self.table.0 + x)
    }

    /// A length in the silo, mm, in pixels.
    pub fn length(&self, length: u32) -> f64 {
        f64::from(length) * self.scale
    }

    /// The lower edge of a strake has a line in the silo.
    pub fn has_edge(&self, silo: &Description, strake: usize) -> bool {
        let beside = &silo.strakes[strake..silo.strakes.len().min(strake + 2)];
        beside.iter().any(|height| self.length((*height).into()) >= LOWEST_STRAKE)
    }

    /// The height of a depth in the silo.
    pub fn silo_y(&self, depth: f64) -> f64 {
        self.brim + depth * self.scale
    }

    /// The height of a depth in the chart.
    pub fn chart_y(&self, depth: f64) -> f64 {
        self.brim + depth * self.depth_scale
    }

    /// The class of a table's cells; the greatest pressure in it is in Pa.
    pub fn cells(&self, greatest: u32) -> &'static str {
        if self.line < TIGHT || greatest >= WIDE {
            "end tight"
        } else {
            "end"
        }
    }

    pub fn outline(&self, silo: &Description) -> Outline {
        let axis = (self.ends.0 + self.ends.1) / 2.0;
        let half = self.length(silo.section.shorter_side()) / 2.0;
        let outlet_half = half - self.length(silo.hopper_run);
        let foot = self.silo_y(self.wall);
        Outline {
            left: axis - half,
            right: axis + half,
            axis,
            brim: self.brim,
            surface: self.silo_y(silo.headroom.into()),
            foot,
            outlet: foot + self.length(silo.hopper_height),
            outlet_left: axis - outlet_half,
            outlet_right: axis + outlet_half,
        }
    }

    /// The five points on the slope at the right, counted up from the outlet.
    pub fn slope(&self, silo: &Description) -> [Point; POINTS] {
        let Outline { right, foot, outlet, outlet_right, .. } = self.outline(silo);
        std::array::from_fn(|k| {
            let part = k as f64 / (POINTS - 1) as f64;
            (outlet_right + (right - outlet_right) * part, outlet + (foot - outlet) * part)
        })
    }
}

/// The ends between which a silo stands: those given, less the text of a headroom at the right.
fn ends(silo: &Description, (left, right): Point) -> Point {
    match silo.headroom {
        0 => (left, right),
        _ => (left, right - width(&headroom(silo), SMALL) - 4.0),
    }
}

/// Of the depths in a chart that has its own, V in mm and the room in pixels.
fn own_scale(wall: f64, room: f64) -> f64 {
    OWN_CHART.min(room - BELOW_FLOOR) / wall
}

/// Rows moved apart as little as is needed to stand at least `line` from each other, in the same
/// order, between two ends: rows that are too near share their mean place.
fn apart(rows: &[f64], line: f64, (first, last): Point) -> Vec<f64> {
    let mut groups: Vec<(f64, usize)> = Vec::new();
    for (i, row) in rows.iter().enumerate() {
        let mut group = (row - line * i as f64, 1);
        while let Some((mean, count)) = groups.pop_if(|before| before.0 > group.0) {
            let total = mean * count as f64 + group.0 * group.1 as f64;
            group = (total / (count + group.1) as f64, count + group.1);
        }
        groups.push(group);
    }
    let highest = last - line * (rows.len() - 1) as f64;
    let places = groups.iter().flat_map(|(mean, count)| vec![*mean; *count]);
    let within = places.map(|place| place.min(highest).max(first));
    within.enumerate().map(|(i, place)| place + line * i as f64).collect()
}

/// Lines are told apart that are at least so far from each other.
const FOLLOWED: f64 = 2.5;

/// Lines that are level to the gutter and go from there to rows can be told apart.
fn can_be_followed(places: &[f64], rows: &[f64]) -> bool {
    let steep = |i: usize| (rows[i] - places[i]) / (TABLE.0 - GUTTER);
    (1..rows.len()).all(|i| {
        let apart = (places[i] - places[i - 1]).min(rows[i] - rows[i - 1]);
        apart / steep(i).abs().max(steep(i - 1).abs()).hypot(1.0) >= FOLLOWED
    })
}

/// The least of 1, 2 and 5 times a power of ten that goes into `most` at most `parts` times.
pub fn round_step(most: f64, parts: f64) -> f64 {
    let least = (most / parts).max(1.0);
    let power = 10_f64.powf(least.log10().floor());
    let steps = [1.0, 2.0, 5.0, 10.0].map(|step| step * power);
    steps.into_iter().find(|step| *step >= least).unwrap_or(10.0 * power)
}

#[cfg(test)]
mod tests {
    use super::*;
    use crate::description::{Product, Section};

    fn silo(width: u32, strakes: Vec<u16>, (hopper_height, hopper_run): (u32, u32)) -> Description {
        Description {
            section: Section::Circle(width),
            product: Product { weight: 9000, ratio: 50, friction: 40, factor: 140 },
            filling_eccentricity: 0,
            outlet_eccentricity: 0,
            hopper_height,
            hopper_run,
            strakes,
            depths: vec![0],
            headroom: 0,
        }
    }

    /// More strakes than a sheet may have, and walls wider than high: every row between brim and
    /// foot of the page, in order and apart, and the silo between its sides.
    #[test]
    fn rows_fit() {
        let walls =
            [vec![1200; 40], vec![200; 24], vec![200], [vec![3000; 3], vec![200; 37]].concat()];
        for (strakes, bottom) in walls.iter().flat_map(|wall| [(wall, (0, 0)), (wall, (900, 900))])
        {
            for width in [2000, 50_000] {
                let silo = silo(width, strakes.clone(), bottom);
                let layout = Layout::of(&silo, 150.0, 625.0);
                let rows = [layout.strake_rows.clone(), layout.hopper_rows.clone()].concat();
                assert!(rows.windows(2).all(|pair| pair[1] - pair[0] >= 9.49), "{rows:?}");
                assert!(rows[0] > 150.0 && rows[rows.len() - 1] < 625.0, "{rows:?}");
                let outline = layout.outline(&silo);
                let (left, right) = layout.ends;
                assert!(outline.left >= left - 0.1 && outline.right <= right + 0.1);
                assert!(layout.is_beside() || rows[0] > outline.outlet + BELOW_FLOOR);
                assert!(outline.outlet < 625.0 && layout.chart_y(layout.wall) < 625.0);
            }
        }
    }
}
