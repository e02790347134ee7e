//! Drawings of ordinary silos and of the largest and smallest: type that can be read in print, all
//! inside the margins, no text on another, everything said, and no arrow where there is no outlet.
//! Each drawing is left in the folder of scratch files, `drawings`, to be looked at.

mod common;
mod page;
mod silos;

use common::{sample, Random};
use page::{bare, Page, Text};
use silo::basis::Basis;
use silo::description::Description;
use silo::discharge::{Discharge, Shape};
use silo::doubt;
use silo::draw;
use silo::fraction::Fraction;
use silo::library::{Loads, P_HE, P_HF, P_P, P_VF, P_W, P_WE, P_WF, ROW};
use silo::report::{Labels, Report, Said, PROGRAM};
use silo::units::Units;
use silos::{any_silo, case, described, filled, labels, texts};
use std::path::PathBuf;

struct Drawing {
    name: String,
    silo: Description,
    said: Vec<String>,
    /// The strakes' table, a strake a row.
    rows: Vec<Vec<String>>,
    page: Page,
}

fn loads(silo: &Description) -> Loads {
    let loads = Loads::of(&silo.to_bytes(), silo.strakes.len());
    loads.unwrap_or_else(|refusal| panic!("{silo:?}: {refusal:?}"))
}

/// The same silo with depths for curves.
fn for_curves(silo: &Description) -> Description {
    let edges = silo.edges().map(|(_, edge)| edge as u32);
    let mut depths: Vec<u32> = edges.chain([0, silo.headroom]).collect();
    depths.sort_unstable();
    depths.dedup();
    Description { depths, ..silo.clone() }
}

/// A strake's number, height and lower edge, its five pressures, and p_he + p_p.
fn rows(report: &Report) -> Vec<Vec<String>> {
    let edges = report.silo.edges().zip(report.edges.rows()).enumerate();
    let row = |(i, ((height, edge), row)): (usize, ((u16, u64), [u32; ROW]))| {
        let discharged = row[P_HE] + row[P_P];
        let pressures = [row[P_HF], row[P_HE], row[P_WF], row[P_WE], row[P_P], discharged];
        let lengths = [i as u64 + 1, height.into(), edge].map(|number| number.to_string());
        let shown = pressures.map(|pressure| report.units.show(pressure));
        lengths.into_iter().chain(shown).collect()
    };
    edges.map(row).collect()
}

/// Everything but the strakes' table.
fn said(report: &Report, loads: &Loads) -> Vec<String> {
    let mut said = doubt::drawn(&report.doubts(), report.notes());
    said.extend([report.product(), report.discharge().shown()]);
    said.extend(report.labels.iter().map(|(_, text)| text.clone()));
    said.extend([report.file.replace("orders/", ""), PROGRAM.to_string()]);
    let bottom: Vec<u32> = match report.silo.is_flat() {
        true => vec![loads.floor()],
        false => loads.hopper().flat_map(|(_, normal, friction)| [normal, friction]).collect(),
    };
    said.extend(bottom.into_iter().map(|number| report.units.show(number)));
    said.extend(made_with(report));
    let basis = Basis::of(report.silo);
    said.push(format!("By hand, q at V: R {} mm; p_hf: P ", basis.radius.about(3)));
    said.push(format!("; beta {}", basis.beta.shown()));
    let n3 = |n3: u128| format!(", n3 {}", report.units.exact(Fraction::whole(n3)));
    said.extend(basis.hopper.map(|hopper| n3(hopper.n3)));
    said
}

/// The equation of each load with its Ks and mu, and p_vf and P_w at the wall's foot.
fn made_with(report: &Report) -> Vec<String> {
    let Report { silo, units, .. } = report;
    let hundredths = |times: u32, mean: u16| {
        let decimal = format!("{:.4}", f64::from(times * u32::from(mean)) / 10_000.0);
        decimal.trim_end_matches('0').trim_end_matches('.').to_string()
    };
    let [low, high] = [90, 115].map(|times| {
        [silo.product.ratio, silo.product.friction].map(|mean| hundredths(times, mean))
    });
    let foot = |load| units.show(*report.edges.column(load).last().expect("a foot"));
    let (vertical, wall) = (foot(P_VF), foot(P_W));
    let mut said = vec![
        "equation 5.3 5.21 5.2 5.20 5.24".to_string(),
        format!("1.15 Ks (7.1, 7.3) {} the largest", [high[0].as_str(); 5].concat()),
        format!("0.9 mu (7.1) {} at any", [low[1].as_str(); 3].concat()),
        format!("1.15 mu (7.3) {} place", [high[1].as_str(); 2].concat()),
        format!("p_vf at V {vertical} {} (5.4)", units.pressure()),
        format!("0.9 Ks = {}, 0.9 mu = {} (7.2)", low[0], low[1]),
        format!("P_w at V {wall} {} (5.7)", units.per_metre()),
        format!("1.15 Ks = {}, 1.15 mu = {} (7.3)", high[0], high[1]),
    ];
    match silo.is_flat() {
        true => said.push("Flat floor, vertical load 1.2 p_vf at V (5.13)".to_string()),
        false => said.extend([
            "P_n with p_vf at V (5.15 to 5.17), n3 (5.18)".to_string(),
            format!("P_t (5.19), 1.15 mu = {} (7.3)", high[1]),
        ]),
    }
    said
}

fn drawing(name: &str, text: &str, labels: &Labels, units: Units) -> Drawing {
    let (silo, origin) = described(text);
    let (curves, loads) = (loads(&for_curves(&silo)), loads(&silo));
    let file = format!("orders/{name}.silo");
    let beside = Said { file: &file, origin: &origin, stiffened: false, labels };
    let report = Report::of(&silo, beside, units);
    let report = report.unwrap_or_else(|refusal| panic!("{name}: {refusal:?}"));
    let svg = draw::page(&report, &loads, &curves);
    let folder = PathBuf::from(env!("CARGO_TARGET_TMPDIR")).join("drawings");
    std::fs::create_dir_all(&folder).expect("a folder");
    std::fs::write(folder.join(format!("{name}.svg")), &svg).expect("a drawing");
    let (said, rows) = (said(&report, &loads), rows(&report));
    Drawing { name: name.to_string(), silo, said, rows, page: Page::read(&svg) }
}

/// Every case and sample, without labels and with those of the greatest length, in Pa and kPa.
fn drawings() -> Vec<Drawing> {
    let filled = filled();
    let each = |(name, text): &(String, String)| {
        let one = |(more, labels, units): &(&str, Labels, Units)| {
            drawing(&format!("{name}{more}"), text, labels, *units)
        };
        filled.iter().map(one).collect::<Vec<Drawing>>()
    };
    texts().iter().flat_map(each).collect()
}

/// What makes a drawing unfit to be printed and filed.
fn faults(drawing: &Drawing) -> Vec<String> {
    let faults = [drawing.page.faults(), unsaid(drawing)].concat();
    faults.into_iter().map(|fault| format!("{}: {fault}\n", drawing.name)).collect()
}

fn unsaid(drawing: &Drawing) -> Vec<String> {
    let mut said = drawing.said.clone();
    if !drawing.silo.is_flat() {
        said.push(format!("outlet {} mm", drawing.silo.outlet_width()));
    }
    if drawing.silo.outlet_is_passed() {
        said.push("hopper calculated as symmetric".to_string());
    }
    let parts = if drawing.silo.headroom > 0 { "V - g + H" } else { "V + H" };
    said.push(format!("height h = {parts} = {} mm", drawing.silo.height()));
    drawing.page.unsaid(&said)
}

/// The least and the greatest.
fn ends(numbers: impl Iterator<Item = f64> + Clone) -> (f64, f64) {
    (numbers.clone().fold(f64::MAX, f64::min), numbers.fold(f64::MIN, f64::max))
}

/// Of the brim and of the outlet or the floor.
fn heights(page: &Page) -> (f64, f64) {
    ends(page.shapes("wall").flatten().map(|point| point.1))
}

/// The chart's corners, from the upper left one on.
fn chart(page: &Page) -> &[(f64, f64)] {
    let brim = heights(page).0;
    let mut frames = page.shapes("frame").filter(|frame| frame.len() == 4);
    frames.find(|frame| frame[0].1 == brim).expect("a chart")
}

/// Of the grain's surface.
fn surface(page: &Page) -> f64 {
    ends(page.shapes("grain").flatten().map(|point| point.1)).0
}

/// Pixels for each mm across.
fn scale(drawing: &Drawing) -> f64 {
    let (left, right) = ends(drawing.page.shapes("wall").flatten().map(|point| point.0));
    (right - left) / f64::from(drawing.silo.section.shorter_side())
}

/// Height and width have one scale, and each strake's edge that is drawn is at its depth.
fn silo_is_to_scale(drawing: &Drawing) {
    let (silo, (brim, outlet), scale) = (&drawing.silo, heights(&drawing.page), scale(drawing));
    // both ends of a length are rounded to tenths of a pixel
    let least = 0.11 + 0.11 * silo.built_height() as f64 / f64::from(silo.section.shorter_side());
    let near = |y: f64, z: u64| (y - brim - z as f64 * scale).abs() < least;
    assert!(near(outlet, silo.built_height()), "{}: {brim} {outlet} {scale}", drawing.name);
    for edge in drawing.page.shapes("edge") {
        let at_depth = silo.edges().any(|(_, z)| near(edge[0].1, z));
        assert!(at_depth, "{}: {brim} {edge:?} {scale}", drawing.name);
    }
}

/// The grain lies at its depth in the silo. Where that is below the brim, a line says so in silo and chart, a dimension goes from
/// the brim to it, and no curve leaves 0 above it.
fn surface_has_its_depth(drawing: &Drawing) {
    let (page, silo, name) = (&drawing.page, &drawing.silo, &drawing.name);
    let ((brim, outlet), surface) = (heights(page), surface(page));
    let part = |of: u64| f64::from(silo.headroom) / of as f64;
    let in_silo = brim + (outlet - brim) * part(silo.built_height());
    assert!((surface - in_silo).abs() < 0.11, "{name}: {surface} {in_silo}");
    let lines: Vec<&Vec<(f64, f64)>> = page.shapes("surface").collect();
    let said = |words: String| page.texts.iter().any(|text| bare(&text.words) == bare(&words));
    let words = [format!("g {} mm", silo.headroom), "surface of the grain".to_string()];
    assert_eq!(words.map(said), [silo.headroom > 0; 2], "{name}");
    let [on_grain, in_chart] = lines[..] else {
        return assert!(lines.is_empty() && silo.headroom == 0, "{name}: {lines:?}");
    };
    let chart = chart(page);
    let due = brim + (chart[2].1 - brim) * part(silo.wall_height());
    assert!(on_grain[0].1 == surface && (in_chart[0].1 - due).abs() < 0.11, "{name}: {lines:?}");
    let tips = |y: f64| page.shapes("arrow").map(|head| head[0]).filter(move |tip| tip.1 == y);
    let (right, level) = (on_grain[1].0, |x: f64| tips(surface).any(|tip| tip.0 == x));
    assert!(tips(brim).any(|tip| tip.0 > right && level(tip.0)), "{name}: no dimension");
    let above = silo.edges().filter(|(_, edge)| *edge < silo.headroom.into()).count() + 2;
    for curve in page.shapes("horizontal").chain(page.shapes("friction")).filter(|c| c.len() > 2) {
        assert!(curve[..above].iter().all(|point| point.0 == chart[0].0), "{name}: {curve:?}");
    }
}

/// The filling's arrow ends on the grain and the outflow's stands at the outlet, at its
/// eccentricity where the outlet reaches that far; a dimension from the axis goes to each
/// eccentricity.
fn arrows_at_openings(drawing: &Drawing) {
    let (page, silo) = (&drawing.page, &drawing.silo);
    let ((brim, outlet), scale) = (heights(page), scale(drawing));
    let axis = page.shapes("axis").next().expect("an axis")[0].0;
    let place = |eccentricity: u32| axis + f64::from(eccentricity) * scale;
    let [filling, eccentric] = [silo.filling_eccentricity, silo.outlet_eccentricity].map(place);
    let outflow = if silo.outlet_is_passed() { axis } else { eccentric };
    // a head's first point is its tip, and its two others are level or upright with each other
    let heads = || page.shapes("arrow");
    let down = heads().filter(|head| head[1].1 == head[2].1 && head[1].1 < head[0].1);
    let down: Vec<(f64, f64)> = down.map(|head| head[0]).collect();
    let near = |x: f64, tip: &(f64, f64)| (tip.0 - x).abs() < 0.2;
    let name = &drawing.name;
    let surface = surface(page);
    assert!(down.iter().any(|tip| tip.1 == surface && near(filling, tip)), "{name}: {down:?}");
    let below: Vec<&(f64, f64)> = down.iter().filter(|tip| tip.1 > outlet + 15.0).collect();
    assert!(below.len() == 1 && near(outflow, below[0]), "{name}: {below:?}, {outflow}");
    for (x, from, to) in [(filling, 0.0, brim), (eccentric, outlet, outlet + 20.0)] {
        let mut level = heads().filter(|head| head[1].0 == head[2].0).map(|head| head[0]);
        let dimensioned = level.any(|tip| near(x, &tip) && from < tip.1 && tip.1 < to);
        assert!(dimensioned || x == axis, "{name}: no dimension to {x}");
    }
}

/// Each strake has its row, in order.
fn strakes_have_rows(drawing: &Drawing) {
    let words: Vec<&str> = drawing.page.texts.iter().map(|text| text.words.as_str()).collect();
    let places = drawing.rows.iter().map(|row| words.windows(row.len()).position(|w| w == row));
    let places: Option<Vec<usize>> = places.collect();
    let places = places.unwrap_or_else(|| panic!("{}: not {:?}", drawing.name, drawing.rows));
    assert!(places.is_sorted(), "{}: {places:?}", drawing.name);
}

/// The depth axis ends with the wall's height, at the foot.
fn foot_has_its_depth(drawing: &Drawing) {
    let (page, wall) = (&drawing.page, drawing.silo.wall_height().to_string());
    let (right, foot) = chart(page)[2];
    let at_foot = |text: &&Text| text.low.0 > right && text.low.1 < foot && foot < text.high.1;
    let depths: Vec<&str> = page.texts.iter().filter(at_foot).map(|text| &*text.words).collect();
    assert_eq!(depths, [wall], "{}", drawing.name);
}

/// Five points on the slope, or none where they would run together; a line goes from each of them to its row, or k stands beside it
/// as far as there is room.
fn hopper_has_points(drawing: &Drawing) {
    let page = &drawing.page;
    let points: Vec<(f64, f64)> = page.circles("point").collect();
    assert!(points.is_empty() || points.len() == 5 && !drawing.silo.is_flat(), "{}", drawing.name);
    let mut pairs = points.windows(2);
    assert!(pairs.all(|pair| (pair[0].0 - pair[1].0).hypot(pair[0].1 - pair[1].1) > 5.8));
    let leaders: Vec<_> = page.shapes("leader").filter(|line| points.contains(&line[0])).collect();
    assert!(leaders.is_empty() || leaders.len() == 5, "{}: {leaders:?}", drawing.name);
    for (i, point) in points.iter().enumerate() {
        let k = bare(&format!("k = {}", 4 - i));
        let mut named = page.texts.iter().filter(|text| bare(&text.words) == k);
        match leaders.get(i) {
            Some(leader) => {
                let (end, row) = (leader[leader.len() - 1], named.next().expect("a row"));
                let level = row.low.1 < end.1 && end.1 < row.high.1;
                assert!(leader[0] == *point && row.low.0 > end.0 && level, "{row:?} {end:?}");
            }
            None if i > 0 && points[1].1 - points[0].1 > 11.1 => {
                let beside = |text: &Text| (text.low.0 - point.0 - 7.0).abs() < 0.2;
                assert!(named.any(beside), "{}: {k} is not at {point:?}", drawing.name);
            }
            None => {}
        }
    }
}

/// Lines from the wall or the slope to rows are apart. Where none lead to the strakes' rows, the last strake has its number in the
/// silo or beside it.
fn leaders_can_be_followed(drawing: &Drawing) {
    let page = &drawing.page;
    let points: Vec<(f64, f64)> = page.circles("point").collect();
    let of_hopper = |line: &&Vec<(f64, f64)>| points.contains(&line[0]);
    let bent = page.shapes("leader").filter(|line| line.len() == 3);
    let (hopper, strakes): (Vec<_>, Vec<_>) = bent.partition(of_hopper);
    for pair in strakes.windows(2).chain(hopper.windows(2)) {
        let steep = |line: &[(f64, f64)]| (line[2].1 - line[1].1) / (line[2].0 - line[1].0);
        let steepest = steep(pair[0]).abs().max(steep(pair[1]).abs());
        let apart = (pair[1][1].1 - pair[0][1].1).min(pair[1][2].1 - pair[0][2].1);
        assert!(apart / steepest.hypot(1.0) > 2.3, "{}: {pair:?}", drawing.name);
    }
    if strakes.is_empty() && drawing.silo.headroom == 0 {
        let (last, walls) = (drawing.silo.strakes.len().to_string(), page.shapes("wall"));
        let (left, right) = ends(walls.flatten().map(|point| point.0));
        let is_last = |text: &Text| text.words == last && text.low.0 > left;
        let mut numbers = page.texts.iter().filter(|text| is_last(text));
        assert!(numbers.any(|text| text.low.0 < right + 6.0), "{}: no {last}", drawing.name);
    }
}

/// Everything has its place and its number.
fn is_true(drawing: &Drawing) {
    silo_is_to_scale(drawing);
    surface_has_its_depth(drawing);
    arrows_at_openings(drawing);
    hopper_has_points(drawing);
    leaders_can_be_followed(drawing);
    strakes_have_rows(drawing);
    foot_has_its_depth(drawing);
}

#[test]
fn every_drawing_can_be_printed_and_read() {
    let drawings = drawings();
    let faults: String = drawings.iter().flat_map(faults).collect();
    assert!(faults.is_empty(), "{faults}");
    drawings.iter().for_each(is_true);
}

/// A wide bin stands above its tables, a narrow one beside them.
#[test]
fn a_wide_bin_is_drawn_large() {
    let width = |wide: &'static str| {
        let text = case(false, &[("diameter", wide), ("strakes", "3 x 1500 mm")]);
        let drawing = drawing("wide", &text, &Labels::new(), Units::Whole);
        let (left, right) = ends(drawing.page.shapes("wall").flatten().map(|point| point.0));
        right - left
    };
    let [wide, narrow] = ["30 m", "5 m"].map(width);
    assert!(wide > 500.0 && narrow < 200.0, "{wide} {narrow}");
}

/// Lines that lead to the rows of 24 low strakes could not be followed.
#[test]
fn low_strakes_have_numbers_in_place_of_lines() {
    let leaders = |strakes: &'static str| {
        let text = case(true, &[("diameter", "20 m"), ("strakes", strakes)]);
        let drawing = drawing("leaders", &text, &Labels::new(), Units::Whole);
        drawing.page.shapes("leader").filter(|line| line.len() == 3).count()
    };
    assert_eq!(["24 x 200 mm", "24 x 3 m"].map(leaders), [0, 24]);
}

#[test]
fn a_longest_name_of_a_file_fits() {
    let name = "W".repeat(250);
    let drawing = drawing(&name, &case(false, &[]), &labels("W"), Units::Whole);
    assert_eq!(faults(&drawing), Vec::<String>::new());
}

#[test]
fn an_outlet_off_the_axis_has_other_numbers() {
    let texts = |off: &'static str| {
        let text = case(true, &[("e_o", off)]);
        let drawing = drawing("off-axis", &text, &Labels::new(), Units::Whole);
        let words = |text: &Text| text.words.clone();
        drawing.page.texts.iter().map(words).collect::<Vec<String>>()
    };
    let [central, eccentric] = ["0 mm", "1000 mm"].map(texts);
    let other = eccentric.iter().filter(|text| !central.contains(text));
    assert!(other.filter(|text| bare(text).parse::<u32>().is_ok()).count() >= 5);
}

#[test]
fn kilopascals_stand_in_every_head() {
    let text = case(false, &[]);
    let drawing = drawing("kilo", &text, &Labels::new(), Units::Kilo);
    let is_unit = |text: &&Text| text.words.ends_with("Pa");
    let units: Vec<&Text> = drawing.page.texts.iter().filter(is_unit).collect();
    assert_eq!(units.len(), 9);
    assert!(units.iter().all(|text| text.words.ends_with("kPa")));
}

#[test]
fn the_angle_and_the_page() {
    let text = String::from_utf8(sample("barley-bin.silo")).expect("UTF-8");
    let drawing = drawing("angle", &text, &Labels::new(), Units::Whole);
    assert!(drawing.page.texts.iter().any(|text| text.words == "α 60.5°"));
    assert!(drawing.page.shapes("patch").any(|line| line.len() > 2), "no curve of p_p");
    assert!(drawing.page.style.contains("@page { size: A4 landscape; margin: 0 }"));
}

#[test]
fn any_drawing_can_be_printed_and_read() {
    let mut random = Random(1991);
    let (mut drawn, mut squat) = (0, 0);
    while drawn < 600 {
        let text = any_silo(&mut random);
        let (silo, _) = described(&text);
        if Loads::of(&silo.to_bytes(), silo.strakes.len()).is_err() {
            continue;
        }
        let fill = random.of(&["Mill, yard ", "W", "i"]);
        let labels = if random.below(2) == 0 { labels(fill) } else { Labels::new() };
        let units = random.of(&[Units::Whole, Units::Kilo]);
        let drawing = drawing("any", &text, &labels, units);
        assert_eq!(faults(&drawing), Vec::<String>::new(), "{text}");
        is_true(&drawing);
        drawn += 1;
        squat += u32::from(Discharge::of(&drawing.silo).shape != Shape::Slender);
    }
    println!("{drawn} drawn, of which {squat} are squat");
    assert!(squat > 200 && drawn - squat > 200, "{squat} squat");
}
