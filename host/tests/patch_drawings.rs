//! Drawings of the patch round a shell, for ordinary silos and for the largest and smallest, at the brim, at the wall's foot and between:
//! type that can be read in print, all inside the margins, no text on another, everything said; the pressure as far from the shell as it
//! is great, and the band at its depth; on concrete two opposite squares in their place. Each drawing is left in the folder of scratch files, `patches`, to be looked at.

mod common;
mod page;
mod silos;

use common::Random;
use page::{bare, Page, Text};
use silo::description::{Description, Section};
use silo::doubt;
use silo::draw;
use silo::library::ShellPatch;
use silo::patch::Patch;
use silo::report::{Labels, Report, Said, PROGRAM};
use silo::units::Units;
use silos::{any_silo, case, described, filled, labels, texts};
use std::path::PathBuf;

type Point = (f64, f64);

/// A drawing that can be printed and read, and is true.
fn drawn(name: &str, text: &str, depth: u32, labels: &Labels, units: Units) -> Page {
    let (silo, origin) = described(text);
    let shell = ShellPatch::of(&silo.to_bytes(), depth);
    let shell = shell.unwrap_or_else(|refusal| panic!("{name}: {refusal:?}"));
    let file = format!("orders/{name}.silo");
    let beside = Said { file: &file, origin: &origin, stiffened: false, labels };
    let report = Report::of(&silo, beside, units);
    let report = report.unwrap_or_else(|refusal| panic!("{name}: {refusal:?}"));
    let patch = Patch { report, depth, shell };
    let svg = draw::patch(&patch);
    let folder = PathBuf::from(env!("CARGO_TARGET_TMPDIR")).join("patches");
    std::fs::create_dir_all(&folder).expect("a folder");
    std::fs::write(folder.join(format!("{name}-{depth}.svg")), &svg).expect("a drawing");
    let page = Page::read(&svg);
    let faults = [page.faults(), page.unsaid(&said(&patch))].concat();
    assert_eq!(faults, Vec::<String>::new(), "{name} at {depth} mm");
    match patch.is_round() {
        true => pressures_are_to_scale(&page, &patch),
        false => squares_are_opposite(&page, &patch),
    }
    band_has_its_depth(&page, &patch);
    numbers_are_clear(&page, &svg);
    page
}

/// Facts, notes and the order's lines, and the pressure at each of twelve degrees.
fn said(patch: &Patch) -> Vec<String> {
    let Report { file, labels, units, silo, .. } = patch.report;
    let mut said = doubt::drawn(&patch.report.doubts(), patch.notes());
    said.extend(patch.facts(str::to_string));
    said.extend([patch.report.product(), patch.report.discharge().shown()]);
    said.extend(labels.iter().map(|(_, text)| text.clone()));
    said.extend([file.replace("orders/", ""), PROGRAM.to_string()]);
    let [ratio, friction] = [silo.product.ratio, silo.product.friction].map(f64::from);
    said.push(format!("p_p with Ks = 1.15 x {:.2} = ", ratio / 100.0));
    said.push(format!("mu = 0.9 x {:.2} = ", friction / 100.0));
    said.push(format!("z {} mm", patch.depth));
    said.push(format!("d {} mm", silo.section.shorter_side()));
    if patch.is_round() {
        said.push(format!("p_ps round the shell from above, {}", units.pressure()));
        let at = |(degree, pressure)| format!("{degree}°{}", units.signed(pressure));
        said.extend(patch.every(30).map(at));
    } else {
        let head = "p_p outward on two opposite squares from above";
        said.push(format!("{head}, {}", units.pressure()));
        said.push(format!("p_p{}", units.show(patch.pressure())));
    }
    said
}

fn distance(a: Point, b: Point) -> f64 {
    (a.0 - b.0).hypot(a.1 - b.1)
}

/// Outward and inward half, each degree at its angle, as far from the shell as its pressure says.
fn pressures_are_to_scale(page: &Page, patch: &Patch) {
    let centre = page.circles("shell").next().expect("a shell");
    let halves: Vec<&Vec<Point>> = page.shapes("pressure").collect();
    assert_eq!(halves.iter().map(|half| half.len()).collect::<Vec<usize>>(), [362; 2]);
    let radius = distance(halves[0][0], centre);
    let reach = distance(halves[0][90], centre) - radius;
    let greatest = f64::from(patch.shell.pressure());
    // a few whole Pa make no steps that could be taken for the patch's shape
    let reaches = if greatest >= 50.0 { reach > 20.0 } else { reach <= 1.5 * greatest + 0.11 };
    assert!(reaches, "{greatest} Pa reach {reach}");
    for (half, first) in halves.iter().zip([270, 90]) {
        for (i, point) in half[..=180].iter().enumerate() {
            let degree = (first + i) % 360;
            let part = f64::from(patch.shell.pressures()[degree]) / greatest.max(1.0);
            let due = radius + part * reach;
            // points are rounded to tenths of a pixel, and so are radius and reach
            assert!((distance(*point, centre) - due).abs() < 0.4, "{degree}: {point:?}");
            let (sine, cosine) = (degree as f64).to_radians().sin_cos();
            let place = (centre.0 + due * cosine, centre.1 - due * sine);
            assert!(distance(*point, place) < 0.4, "{degree}: {point:?}");
        }
    }
}

/// Each from the wall outward at its side, as wide as s along the wall, both as far as the pressure says.
fn squares_are_opposite(page: &Page, patch: &Patch) {
    let centre = page.circles("shell").next().expect("a shell");
    let squares: Vec<&Vec<Point>> = page.shapes("pressure").collect();
    assert_eq!(squares.iter().map(|square| square.len()).collect::<Vec<usize>>(), [18; 2]);
    let radius = distance(squares[0][4], centre);
    let reach = distance(squares[0][13], centre) - radius;
    // up to 50 Pa it reaches less far, the smaller the nearer
    let part = f64::from(patch.pressure().min(50)) / 50.0;
    assert!((reach - 0.4 * radius * part).abs() < 0.2, "{reach} of {radius}");
    for (square, side) in squares.iter().zip([0.0, std::f64::consts::PI]) {
        let (wall, curve) = square.split_at(9);
        for (i, (foot, tip)) in wall.iter().zip(curve.iter().rev()).enumerate() {
            // s/2 is a fifth of the radius
            let (sine, cosine) = (side + 0.05 * (i as f64 - 4.0)).sin_cos();
            for (point, due) in [(foot, radius), (tip, radius + reach)] {
                let place = (centre.0 + due * cosine, centre.1 - due * sine);
                assert!(distance(*point, place) < 0.4, "{i}: {point:?} for {place:?}");
            }
        }
    }
}

/// From the depth less s/2 to the depth and s/2, as far as the wall goes, over the whole width, or along each wall.
fn band_has_its_depth(page: &Page, patch: &Patch) {
    let silo = patch.report.silo;
    let wall: Vec<Point> = page.shapes("wall").flatten().copied().collect();
    let ends = |numbers: Vec<f64>| {
        (
            numbers.iter().copied().fold(f64::MAX, f64::min),
            numbers.into_iter().fold(f64::MIN, f64::max),
        )
    };
    let (left, right) = ends(wall.iter().map(|point| point.0).collect());
    let (brim, _) = ends(wall.iter().map(|point| point.1).collect());
    let scale = (right - left) / f64::from(silo.section.shorter_side());
    let half = f64::from(silo.section.shorter_side()) / 10.0;
    let edges = [f64::from(patch.depth) - half, f64::from(patch.depth) + half];
    let edges = edges.map(|edge| brim + scale * edge.clamp(0.0, silo.wall_height() as f64));
    let thick = (right - left).min(8.0) / 2.0;
    let due = match patch.is_round() {
        true => vec![(left, right)],
        false => vec![(left, left + thick), (right - thick, right)],
    };
    let bands: Vec<&Vec<Point>> = page.shapes("band").collect();
    assert_eq!(bands.len(), due.len());
    // both ends of a length are rounded to tenths of a pixel
    let least = 0.11 + 0.11 * silo.wall_height() as f64 / f64::from(silo.section.shorter_side());
    for (band, (from, to)) in bands.iter().zip(due) {
        for (point, (x, y)) in [band[0], band[2]].iter().zip([(from, edges[0]), (to, edges[1])]) {
            let near = (point.0 - x).abs() < 0.16 && (point.1 - y).abs() < least;
            assert!(near, "{band:?} {edges:?}");
        }
    }
}

/// The strakes' numbers, at the left in the silo, stand over the band, and no edge of it goes through one.
fn numbers_are_clear(page: &Page, svg: &str) {
    let band = page.shapes("band").next().expect("a band");
    let (left, right, edges) = (band[0].0, band[2].0, [band[0].1, band[2].1]);
    if right - left < 24.0 {
        return;
    }
    let below = svg.split("<polygon class=\"band\"").next().unwrap_or(svg);
    let number = format!("<text class=\"middle\" x=\"{:.1}\"", left + 10.0);
    assert!(!below.contains(&number), "a number is below the band");
    let in_silo = |text: &&Text| left < text.low.0 && text.high.0 < left + 20.0;
    let digits = |text: &&Text| text.words.chars().all(|c| c.is_ascii_digit());
    for number in page.texts.iter().filter(in_silo).filter(digits) {
        // digits stand on their line
        let (upper, lower) = (number.low.1, number.high.1 - 2.5);
        let cut = edges.iter().any(|edge| upper < *edge && *edge < lower);
        assert!(!cut, "{number:?} is cut at {edges:?}");
    }
}

/// Depths at and beside the brim, the surface and the wall's foot, and between.
fn depths(silo: &Description) -> Vec<u32> {
    let (wall, surface) = (silo.wall_height() as u32, silo.headroom);
    let mut depths = vec![0, 1, surface, surface + 1, wall / 2, wall - 1, wall];
    depths.sort_unstable();
    depths.dedup();
    depths
}

/// The same silo with a wall on which the patch acts on squares.
fn on_concrete(text: &str) -> String {
    let lines = text.lines().filter(|line| !line.starts_with("wall ="));
    lines.map(|line| format!("{line}\n")).collect::<String>() + "wall = concrete\n"
}

#[test]
fn every_patch_can_be_printed_and_read() {
    for (name, text) in texts() {
        let (silo, _) = described(&text);
        let Section::Circle(_) = silo.section else { continue };
        for depth in depths(&silo) {
            for (more, labels, units) in filled() {
                drawn(&format!("{name}{more}"), &text, depth, &labels, units);
            }
            let concrete = format!("concrete-{name}");
            drawn(&concrete, &on_concrete(&text), depth, &Labels::new(), Units::Whole);
        }
    }
}

#[test]
fn any_patch_can_be_printed_and_read() {
    let mut random = Random(1991);
    let mut count = 0;
    while count < 400 {
        let text = any_silo(&mut random);
        let text = if random.below(2) == 0 { on_concrete(&text) } else { text };
        let (silo, _) = described(&text);
        if !silo.is_accepted() {
            continue;
        }
        let depth = random.below(silo.wall_height() as usize + 1) as u32;
        let fill = random.of(&["Mill, yard ", "W", "i"]);
        let labels = if random.below(2) == 0 { labels(fill) } else { Labels::new() };
        drawn("any", &text, depth, &labels, random.of(&[Units::Whole, Units::Kilo]));
        count += 1;
    }
}

#[test]
fn a_longest_name_of_a_file_fits() {
    let name = "W".repeat(240);
    drawn(&name, &case(false, &[]), 5000, &labels("W"), Units::Whole);
}

/// Where nothing presses there is no force to show.
#[test]
fn an_arrow_stands_for_a_force() {
    let named = |depth: u32| {
        let page = drawn("force", &case(false, &[]), depth, &Labels::new(), Units::Whole);
        page.texts.iter().any(|text| bare(&text.words) == "Fp")
    };
    assert_eq!([0, 1, 5000].map(named), [false, true, true]);
}

/// Strakes too low for numbers within have them right of the wall.
#[test]
fn low_strakes_have_numbers_beside_the_wall() {
    let text = case(true, &[("diameter", "4 m"), ("strakes", "24 x 200 mm")]);
    let page = drawn("low", &text, 2500, &Labels::new(), Units::Whole);
    let right = page.shapes("band").next().expect("a band")[2].0;
    let beside = |text: &&Text| (text.low.0 - right - 5.0).abs() < 0.2;
    let numbers: Vec<&str> = page.texts.iter().filter(beside).map(|text| &*text.words).collect();
    assert!(numbers.len() > 8 && numbers[0] == "24", "{numbers:?}");
}
