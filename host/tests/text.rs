//! The text form: what it says exactly, texts that cannot be read against `golden/bad-text.txt`, codes and fixes of their messages
//! against `golden/fixes.txt`, and tens of thousands of damaged texts.

mod common;

use common::{sample, stored, text_with, Random};
use silo::commands::{self, Format};
use silo::description::{Description, Product, Section};
use silo::message::Message;
use silo::text;
use silo::units::Units;
use std::time::{Duration, Instant};

/// Lines that differ from a readable silo.
const BAD: &[&[(&str, &str)]] = &[
    &[("diameter", "")],
    &[("diameter", "5000")],
    &[("diameter", "5,0 m")],
    &[("diameter", "5,000 mm")],
    &[("diameter", "1,000,000 mm")],
    &[("diameter", "5 000 mm")],
    &[("diameter", "2000,2000 mm")],
    &[("diameter", "2000 2000 mm")],
    &[("diameter", "1,2,3 m")],
    &[("diameter", "5.000 mm")],
    &[("diameter", "100.000 mm")],
    &[("diameter", "5.000,00 mm")],
    &[("diameter", "5,000.0 mm")],
    &[("outlet eccentricity", "1,000 mm")],
    &[("weight", "9.000 N/m3")],
    &[("diameter", "5 mm"), ("hopper run", "-"), ("outlet width", "600 mm")],
    &[("diameter", "5.0005 m")],
    &[("diameter", "-5 m")],
    &[("diameter", "five metres")],
    &[("diameter", "mm")],
    &[("diameter", "6.2 mm")],
    &[("diameter", "5 yd")],
    &[("diameter", "5 m 3 cm")],
    &[("diameter", "4294968 m")],
    &[("diameter", "99999999999999999999 mm")],
    &[("diameter", "1e3 mm")],
    &[("diameter", "5..0 m")],
    &[("diameter", ". m")],
    &[("diameter", "= 5 m")],
    &[("diameter", "-")],
    &[("diameter", "-"), ("sides", "4 m")],
    &[("diameter", "-"), ("sides", "4 x 5 x 6 m")],
    &[("diameter", "-"), ("sides", "4 x m")],
    &[("diameter", "-"), ("sides", "4 m by 6 m")],
    &[("diameter", "-"), ("sides", "4,5 x 6 m")],
    &[("sides", "4 x 6 m")],
    &[("diametre", "5 m")],
    &[("höhe", "5 m")],
    &[("bottom", "flat")],
    &[("height", "16 m")],
    &[("h", "16 m")],
    &[("wall height", "16 m")],
    &[("headroom", "300")],
    &[("headroom", "-300 mm")],
    &[("headroom", "0.5 mm")],
    &[("headroom", "0.0005 m")],
    &[("headroom", "1.000 mm")],
    &[("headroom", "0,3 m")],
    &[("headroom", "300 kg")],
    &[("headroom", "5 %")],
    &[("headroom", "300, 400 mm")],
    &[("headroom", "none")],
    &[("headroom", "99999 m"), ("g", "300 mm")],
    &[("headroom", "5000 km")],
    &[("headroom", "4294968 m")],
    &[("headrom", "300 mm")],
    &[("G", "300 mm")],
    &[("fill level", "9.7 m")],
    &[("angle of repose", "25 deg")],
    &[("volume", "300 m3")],
    &[("dimaeter", "5 m")],
    &[("hopper", "2 m")],
    &[("outlet", "0")],
    &[("product", "rape seed")],
    &[("Diameter", "4 m")],
    &[("weight", "9")],
    &[("weight", "850 kg/m3")],
    &[("weight", "0.765 t/m³")],
    &[("weight", "76.5 kg/hl")],
    &[("weight", "9 lb/ft3")],
    &[("weight", "9 t/m3")],
    &[("diameter", "850 kg/m3")],
    &[("weight", "9.00005 kN/m3")],
    &[("friction", "0.123")],
    &[("friction", "0,40")],
    &[("friction", "40 %")],
    &[("friction", "24°")],
    &[("friction", "24 deg")],
    &[("friction", "80 deg")],
    &[("friction", "90 deg")],
    &[("friction", "0.4 rad")],
    &[("friction", "0.005")],
    &[("friction", "1.005")],
    &[("friction", "656")],
    &[("friction", "low")],
    &[("friction", "-")],
    &[("factor", "1.4 kN/m3")],
    &[("ratio", "-"), ("factor", "-")],
    &[("product", "wheat")],
    &[("weight", "-"), ("ratio", "-"), ("friction", "-"), ("factor", "-")],
    &[
        ("weight", "-"),
        ("ratio", "-"),
        ("friction", "-"),
        ("factor", "-"),
        ("product", "weat"),
        ("wall", "steel"),
    ],
    &[
        ("weight", "-"),
        ("ratio", "-"),
        ("friction", "-"),
        ("factor", "-"),
        ("product", "gravel"),
        ("wall", "wood"),
    ],
    &[("weight", "-"), ("ratio", "-"), ("friction", "-"), ("factor", "-"), ("product", "wheat")],
    &[("weight", "-"), ("ratio", "-"), ("friction", "-"), ("factor", "-"), ("wall", "steel")],
    &[("weight", "-"), ("ratio", "-"), ("friction", "-"), ("product", "wheat"), ("factor", "")],
    &[("weight", "-"), ("product", "wheat"), ("friction", "")],
    &[("ratio", "-"), ("product", "corn"), ("wall", "wood")],
    &[
        ("weight", "-"),
        ("ratio", "-"),
        ("friction", "-"),
        ("factor", "-"),
        ("product", "wheat"),
        ("wall", "corrugated"),
    ],
    &[
        ("weight", "-"),
        ("ratio", "-"),
        ("friction", "-"),
        ("factor", "-"),
        ("product", "maize"),
        ("wall", "galvanised steel"),
    ],
    &[
        ("weight", "-"),
        ("ratio", "-"),
        ("friction", "-"),
        ("factor", "-"),
        ("product", "maize"),
        ("wall", "bolted, corrugated steel"),
    ],
    &[
        ("weight", "-"),
        ("ratio", "-"),
        ("friction", "-"),
        ("factor", "-"),
        ("product", "cron"),
        ("wall", "steel"),
    ],
    &[
        ("weight", "-"),
        ("ratio", "-"),
        ("friction", "-"),
        ("factor", "-"),
        ("product", "coel"),
        ("wall", "steel"),
    ],
    &[
        ("weight", "-"),
        ("ratio", "-"),
        ("friction", "-"),
        ("factor", "-"),
        ("product", "oats"),
        ("wall", "steel"),
    ],
    &[
        ("weight", "-"),
        ("ratio", "-"),
        ("friction", "-"),
        ("factor", "-"),
        ("product", "wehat"),
        ("wall", "steel"),
    ],
    &[("filling eccentricity", "-"), ("outlet eccentricity", "-")],
    &[("hopper run", "-")],
    &[("hopper height", "-")],
    &[("hopper height", "-"), ("hopper run", "-"), ("hopper angle", "45 deg")],
    &[("hopper height", "-"), ("hopper run", "-"), ("hopper angle", "60 foo")],
    &[("hopper height", "-"), ("hopper angle", "15 deg")],
    &[("hopper height", "-"), ("hopper angle", "89 deg")],
    &[("hopper height", "5 m"), ("hopper run", "-"), ("hopper angle", "60 deg")],
    &[("hopper height", "5 m"), ("hopper run", "-"), ("hopper angle", "89.999 deg")],
    &[("hopper run", "-"), ("outlet width", "4999 mm")],
    &[("hopper run", "-"), ("outlet width", "1 mm")],
    &[("hopper run", "-"), ("outlet width", "0")],
    &[("hopper run", "-"), ("outlet width", "5 m")],
    &[("hopper height", "-"), ("hopper angle", "60 deg")],
    &[("hopper height", "-"), ("hopper angle", "60")],
    &[("hopper height", "-"), ("hopper angle", "90 deg")],
    &[("hopper height", "-"), ("hopper angle", "0 deg")],
    &[("hopper height", "-"), ("hopper angle", "91 deg")],
    &[("hopper height", "-"), ("hopper angle", "60.0001 deg")],
    &[("hopper run", "-"), ("α", "37.5°")],
    &[("hopper run", "-"), ("outlet width", "601 mm")],
    &[("hopper run", "-"), ("outlet width", "5001 mm")],
    &[("outlet width", "600 mm")],
    &[("hopper angle", "45 deg")],
    &[("hopper run", "-"), ("outlet width", "600 mm"), ("hopper angle", "45 deg")],
    &[("floor", "flat")],
    &[("hopper run", "-"), ("hopper height", "-"), ("floor", "conical")],
    &[("hopper run", "-"), ("hopper height", "-")],
    &[("strakes", "")],
    &[("strakes", "5 x 2000")],
    &[("strakes", "5 x 2000 mm,")],
    &[("strakes", "5 x 2000 800 mm")],
    &[("strakes", "2000,2000,2000,2000 mm")],
    &[("strakes", "1,200, 900 mm")],
    &[("strakes", "5 x 1200,2 x 1500 mm")],
    &[("strakes", "8 x 2,000 mm")],
    &[("strakes", "8 x 2000.5 mm")],
    &[("strakes", "8 x 2 m each")],
    &[("strakes", "2.5 x 2000 mm")],
    &[("strakes", "0 x 2000 mm")],
    &[("strakes", "40000 x 2000 mm")],
    &[("strakes", "65.536 m")],
    &[("depths", "")],
    &[("depths", "every 0 mm")],
    &[("depths", "every -5 m")],
    &[("depths", "every")],
    &[("depths", "every 1 mm"), ("strakes", "24 x 3 m")],
    &[("depths", "strake edges"), ("strakes", "20000 x 8 mm")],
    &[("customer", "a \u{202e}turned name")],
    &[("depths", "every step")],
    &[("depths", "every 0.1 mm")],
    &[("depths", "0 to 10 m by 1 m")],
    &[("depths", "every 1000 m")],
    &[("depths", "every 10001 mm")],
    &[("depths", "every 30000 m")],
    &[("project", "a name of far more than sixty characters, which no title block has room for")],
    &[("depths", "all")],
    &[("weight", "78 kg/hl")],
    &[("weight", "780 kg/m³  # a measured mean"), ("product", "wheat"), ("ratio", "-")],
    &[("strakes", "5 x 78 13/64 in")],
    &[("factor", "-")],
    &[("factor", "1.305")],
    &[("ratio", "0.455")],
    &[("friction", "-"), ("friction low", "0.27"), ("friction high", "0.35")],
    &[("mu min", "0.27")],
    &[("Lower friction", "0.27")],
    &[("Ks high", "0.6")],
    &[("strakes", "2000 x 8 mm")],
    &[("strakes", "2 m x 8")],
    &[("strakes", "8")],
    &[("strakes", "8 of 1200 mm")],
    &[("strakes", "2 m 500 mm")],
    &[("strakes", "8 x 48.5 in")],
    &[("strakes", "1.2, 1.2005, 3 m")],
    &[("strakes", "2000, 900")],
    &[("diameter", "47 1/4 in")],
    &[("diameter", "16' 5\"")],
    &[("diameter", "16 ft 5 in")],
    &[("diameter", "200000000 ft")],
    &[("diameter", "5'000 mm")],
    &[("diameter", "5’000 mm")],
    &[("diameter", "Ø 5000 mm")],
    &[("strakes", "5 x 2'000 mm")],
    &[("depths", "0 .. 10 m")],
    &[("depths", "0-10 m")],
    &[("depths", "0 to 10 m")],
    &[("depths", "every metre")],
    &[("hopper height", "-"), ("hopper angle", "30 deg")],
    &[("hopper run", "-"), ("hopper angle", "15 deg")],
    &[("dia\u{200b}meter", "5 m")],
    &[("diameter", "50\u{200b}00 mm")],
    &[("headroom", "300\u{ad} mm  # soft hyphen")],
    &[("filling eccentricity", "centre")],
    &[("outlet eccentricity", "center")],
    &[("hopper", "none"), ("hopper height", "-"), ("hopper run", "-")],
    &[("diameter", "-"), ("radius", "2.5 m")],
    &[("radius", "half")],
    &[("product", "wheat"), ("weight", "-"), ("wall", "stainless")],
    &[("strakes", "24 x 65 m"), ("depths", "every 1 mm")],
    &[("diameter", "ca. 5 m")],
    &[("diameter", "5000 mm (inside)")],
    &[("diameter", "5000 mm // inside")],
    &[("diameter", "5000 +- 5 mm")],
    &[("diameter", "5m50")],
    &[("diameter", "5 m 50 cm")],
    &[("diameter", "4.9-5.0 m")],
    &[("strakes", "2000 mm each")],
    &[("strakes", "2000+2000+1500 mm")],
    &[("strakes", "6 x 2000 and 2 x 1500 mm")],
    &[("strakes", "6 x 2000, 2 x 1500 mm, bottom first")],
    &[("strakes", "8 x 6' 6\"")],
    &[("strakes", "8 x 78 3/4 in, 2 x 1 m")],
    &[("product", "wheat"), ("weight", "-"), ("wall", "mild steel")],
    &[("product", "wheat"), ("weight", "-"), ("wall", "reinforced concrete")],
    &[("weight", "780")],
    &[("weight", "780 kg / m3")],
    &[("weight", "100000")],
    &[("weight", "49 lb/ft3")],
    &[("friction", "0.3 to 0.4")],
    &[("friction", "0.3-0.4")],
    &[("friction", "tan 24")],
    &[("friction", "0.30 (steel)")],
    &[("wall friction angle", "24 deg"), ("friction", "-")],
    &[("internal friction", "30 deg")],
    &[("filling eccentricity", "+/- 200 mm")],
    &[("thickness", "3 mm")],
    &[("strake height", "2 m"), ("strakes", "-")],
    &[("depths", "strake joints")],
    &[("headroom", "full")],
    &[("stiffeners", "y")],
    &[("diameter", "5OOO mm")],
    &[("strakes", "5 x 2OO0 mm")],
    &[("diameter", ".999999999 999999999/999999999 ft 9.99999999 999999999/999999999 in")],
    &[("diameter", "1.00000001 1/999999999 ft 1.00000001 1/999999999 in")],
    &[("diameter", "999999999 999999999/128 ft 999999999 999999999/127 in")],
    &[("diameter", "198 13/64 in")],
    &[("weight", "780   /   kg")],
    &[("strakes", "1000, 2000, 3000 mm top to bottom")],
    &[("strakes", "1000, 2000, 3000 mm (top first)")],
    &[("strakes", "1000, 2000, 3000 mm from bottom to top")],
    &[("strakes", "1000, 2000, 3000 mm, from the bottom")],
    &[("strakes", "1000, 2000, 3000 mm bottom up")],
    &[("strakes", "1000, 2000, 3000 mm (thickest at the bottom)")],
    &[("strakes", "8 x 1200 mm without the bottom one")],
    &[("depths", "0, 500, 1000 mm above the floor")],
    &[("depths", "0/500/1000 mm")],
    &[("diameter", "2.5 m radius")],
    &[("diameter", "R = 2.5 m (inside)")],
    &[("diameter", "200 mm radius")],
    &[("diameter", "half of 5 m")],
    &[("diameter", "about 5 m, inner")],
    &[("diameter", "ca. 5 mm")],
    &[("friction", "max 0.45")],
    &[("friction", "min 0.30")],
    &[("friction", "0.45 (upper)")],
    &[("friction", "0.45 high")],
    &[("friction", "0.45 internal")],
    &[("friction", "0.45 (internal)")],
    &[("friction", "0.45 wheat on concrete")],
    &[("ratio", "low 0.45")],
    &[("weight", "mean 7800 N/m3")],
    &[("weight", "7.5 kN/m3 measured")],
    &[("weight", "7.5 kN/m3 measured"), ("product", "wheat"), ("ratio", "-")],
    &[("weight", "780 kg / m3 (measured)")],
    &[("weight", "780 kg/m3 wet")],
    &[("weight", "7.5 kN/m3 (loose)")],
    &[("factor", "1.2 (filling)")],
    &[("factor", "blank")],
    &[("factor", "unknown")],
    &[("diameter", "16 ft")],
    &[("headroom", "16 in")],
    &[("filling eccentricity", "4 in")],
    &[("outlet eccentricity", "axial")],
    &[("diameter", "-"), ("sides", "4 by 6 m")],
    &[("diameter", "-"), ("sides", "4000 / 6000 mm")],
    &[("strakes", "8 rings of 2000 mm")],
    &[("strakes", "2,0; 2,0; 1,5 m")],
    &[("weight", "9,000 kN/m3")],
    &[("weight", "9,000 N/m3")],
    &[("weight", "76-80 kg/hl")],
    &[("weight", "8 to 9 kN/m3")],
    &[("diameter", "5 - 6 m")],
    &[("weight", "780 g/l")],
    &[("weight", "9 to 7 kN/m3")],
    &[("weight", "80–76 kg/hl")],
    &[("weight", "95")],
    &[("weight", "1600")],
    &[("weight", "1.6")],
    &[("outlet eccentricity", "0.5")],
    &[("outlet eccentricity", "centre + 500 mm")],
    &[("outlet eccentricity", "full")],
    &[("outlet eccentricity", "in the centre")],
    &[("headroom", "full")],
    &[("strakes", "8 x 200")],
    &[("strakes", "8 ft 200 mm")],
    &[("strakes", "3 plus 2 m")],
    &[("strakes", "8 2000 mm")],
    &[("strakes", "2000 x 3, 1500 x 5 mm")],
    &[("strakes", "3 rings x 8")],
    &[("strakes", "1,2; 3 m")],
    &[("diameter", "-"), ("sides", "12 ft 6.5 in x 15 ft")],
    &[("diameter", "-"), ("sides", "4,000 x 6 m")],
    &[("wall", "steel/concrete")],
    &[("wall", "smooth steel, not corrugated")],
    &[("wall", "uncorrugated")],
    &[("wall height", "16 m")],
    &[("wall height", "10 m")],
    &[("grain height", "17 m")],
    &[("grain height", "8 m")],
    &[("phi", "45 deg"), ("factor", "")],
    &[("phi", "35 deg"), ("factor", "-")],
    &[("phi", "30 deg")],
    &[("friction of grain", "0.5")],
    &[("min weight", "8 kN/m3"), ("weight", "-")],
    &[("factor of safety", "1.35"), ("factor", "-")],
    &[("friction of sand", "0.5"), ("friction", "-")],
    &[("inlet eccentricity", "1 m")],
    &[("phi", "45 deg"), ("product", "wheat"), ("weight", "-"), ("ratio", "-"), ("factor", "-")],
    &[("headroom", "1.9 m"), ("grain height", "10 m")],
    &[("weight", "48")],
    &[("strakes", "2 + 6 x 2 m")],
    &[("strakes", "2 1 m")],
    &[("strakes", "8 x 1/2 m")],
    &[("hopper heigth", "3 m")],
    &[("strakes upward", "4 x 1250 mm"), ("strakes", "-")],
    &[("strakes (top first)", "8 x 1250 mm"), ("strakes", "-")],
    &[("half diameter", "2.5 m"), ("diameter", "-")],
    &[("headroom below hopper", "1.8 m")],
    &[("wall", "corrugated roof, steel wall")],
    &[("wall", "decorrugated")],
    &[("test weight", "8 kN/m3"), ("weight", "-")],
    &[("Ch", "1.4"), ("factor", "-")],
    &[("outlet eccentricity", "500 mm diameter")],
    &[
        ("product", "blé tendre"),
        ("weight", "-"),
        ("ratio", "-"),
        ("friction", "-"),
        ("factor", "-"),
        ("wall", "steel"),
    ],
    &[("weight", "60 lb/bushel")],
    &[("headroom", "15.4 m of grain")],
    &[("headroom", "approx. 300 mm")],
    &[("diameter", "900 m 50")],
    &[("diameter", "9OO m")],
    &[("product", "wheat"), ("weight", "-"), ("wall", "epoxy steel")],
    &[("product", "wheat"), ("weight", "-"), ("wall", "teflon lined steel")],
    &[("product", "wheat"), ("weight", "-"), ("wall", "plain carbon steel wall")],
    &[("product", "wheat"), ("weight", "-"), ("wall", "rubber concrete")],
    &[("hopper height", "-"), ("hopper angle", "70 deg")],
    &[("hopper run", "-"), ("hopper angle", "69.999 deg")],
];

/// Texts that no line of `BAD` makes.
const BROKEN: [&str; 17] = [
    "diameter -> 5000 mm\nstrakes := 5 x 2 m\nwidth = 5 m\nclient = x\n",
    "depths = 0, 100, 200, 300, 400, 500, 600, 700, 800, 900, 1000, 1100, 1200, 1300, 1400, 1500, 16OO, 1700 mm\n",
    "diametr = 5 m\nstrake = 5 x 2 m\nwieght = 9 kN/m3\n",
    "outlet eccentricity 0 mm\nproject\nhopper run: 2 m\n",
    "[tower]\ndiameter = 5 m\rdepths = all\rproduct = wheat, barley\n",
    "product = qqqqqqqqqqqqqqqqqqqqqqqqqqqqqqqqqqqqqqqqqqqqqqqqqqqqqqqqqqqqqqqqqqqqqqqqqqqqqqqqqqqqqqqqqqqqqqqqqqqqqqqqq\n",
    "product = wheat\nwall = corrugated\nfriction =\nfactor = 0\n",
    "diameter 5000 mm\n",
    "headroom: 300 mm\n",
    "diameter: 5000 mm\n",
    "\n\n# nothing but a comment\n",
    "= 5\n",
    "diameter = 5 m # a comment\ndiameter = 6 m\n",
    "strakes = 24 x 65 m\ndepths = every 1 mm\n",
    "depths = 0,500 mm\r\nstrakes = 2,5 m\r\n",
    "// a comment\n; another\nheadroom is 300 mm\n\u{200b}\n",
    "diameter ; 5000 mm\nheadroom;300 mm\nratio .55\nstrakes | 8 x 2 m\n",
];

fn unreadable(page: &mut String, text: &str, shown: &str) {
    let outcome = commands::loads("tower.silo", text.as_bytes(), Format::Table, Units::Whole);
    assert_eq!(outcome.status, 2, "{shown}");
    *page += &format!("== {shown}\n{}\n", outcome.messages);
}

#[test]
fn bad_texts_name_the_line_and_the_mend() {
    let mut page = String::new();
    for changes in BAD.iter().copied() {
        let lines = changes.iter().map(|(name, value)| match *value {
            "-" => format!("no {name}"),
            value => format!("{name} = {value}"),
        });
        let shown = lines.collect::<Vec<String>>().join("; ");
        unreadable(&mut page, &text_with(changes), &shown);
    }
    for text in BROKEN {
        unreadable(&mut page, text, &format!("{text:?}"));
    }
    stored("host/tests/golden/bad-text.txt", page.as_bytes());
}

/// The text with another line in place of one, or behind the last.
fn with_line(text: &str, line: Option<usize>, fix: &str) -> String {
    let mut lines: Vec<&str> = text.lines().collect();
    match line {
        Some(line) => lines[line - 1] = fix,
        None => lines.push(fix),
    }
    lines.join("\n")
}

/// Messages that a fixed line may still have: of another line that says the same, and of an angle that no whole mm gives.
const OTHERS: [&str; 4] = ["one-of-two", "too-many-lines", "twice", "not-exact"];

/// Each fix of a message is a whole line, which keeps the comment and with which the message is gone; no other is left on the line.
#[test]
fn fixes_mend_what_the_message_is_about() {
    let bad = BAD.iter().map(|changes| text_with(changes));
    let broken = BROKEN.iter().map(|text| text.replace("\r\n", "\n").replace('\r', "\n"));
    let mut page = String::new();
    for text in bad.chain(broken) {
        let lines: Vec<String> = text.lines().map(|line| format!("{line}   # kept")).collect();
        let text = lines.join("\n");
        for message in text::read(&text).expect_err(&text) {
            let at = message.line.map(|line| lines[line - 1].as_str()).unwrap_or_default();
            let name = message.name.map(|name| name.word()).unwrap_or_default();
            page += format!("{}: {name}: {at}\n", message.slip.code())
                .replace("   # kept", "")
                .as_str();
            for fix in &message.fixes {
                page += &format!("    {}\n", fix.replace("   # kept", ""));
                let mended = with_line(&text, message.line, fix);
                let left = text::read(&mended).err().unwrap_or_default();
                let same = |other: &&Message| other.words() == message.words();
                assert_eq!(left.iter().find(same), None, "{fix}");
                let here = |other: &&Message| message.line.is_some() && other.line == message.line;
                let mut here = left.iter().filter(here);
                let other = here.find(|other| !OTHERS.contains(&other.slip.code()));
                assert_eq!(other, None, "{fix}");
                assert!(message.line.is_none() || fix.ends_with("   # kept"), "{fix}");
            }
        }
    }
    stored("host/tests/golden/fixes.txt", page.as_bytes());
}

/// How long a text is looked at, the least of some runs.
fn time_of(text: &str) -> Duration {
    let runs = (0..3).map(|_| {
        let start = Instant::now();
        let outcome = commands::check("long.silo", text.as_bytes(), Format::Json);
        assert_eq!(outcome.status, 2, "{:.20}", text);
        start.elapsed()
    });
    runs.min().unwrap_or_default()
}

/// A text that is 16 times as long takes no more than 64 times as long, whatever it says: many lines at fault, and long lines of many
/// words. It would be 256 times with each place looked at once for every other.
#[test]
fn long_texts_take_no_longer_than_they_are() {
    const LINES: [&str; 9] = [
        "a=\n",
        "=\n",
        "a\n",
        "diamtr = 5 m\n",
        "diameter = 5 m\n",
        "\u{200b}\n",
        "h = 9 m\n",
        "phi = 45 deg\n",
        "grain level of the silo = 9 m\n",
    ];
    const WORDS: [&str; 7] =
        ["a ", "diameter: ", ":", "diameter = 1 / ", "strakes = 1,", "depths = 0 - ", "m"];
    let repeated = |part: &str, bytes: usize| part.repeat(bytes / part.len());
    let spaced = |bytes: usize| {
        let spaces = " ".repeat(bytes / 2);
        format!("diameter = 5{spaces}/{spaces}m")
    };
    let pairs = LINES.map(|line| [65_536, 1 << 20].map(|bytes| repeated(line, bytes)));
    let words = WORDS.map(|word| [12_500, 200_000].map(|bytes| repeated(word, bytes)));
    let lists = ["strakes = ", "depths = "].map(|name| {
        [12_500, 200_000].map(|bytes| name.to_string() + &repeated("24 x 65 ft,", bytes) + " 5 ft")
    });
    let judged = [6_250, 100_000].map(|bytes| {
        repeated("h = 9 m\n", bytes) + "strakes = " + &repeated("1 x 2 m,", bytes) + " 2 m"
    });
    let others = lists.into_iter().chain([[4_000, 64_000].map(spaced), judged]);
    for [short, long] in pairs.into_iter().chain(words).chain(others) {
        let [short_time, time] = [&short, &long].map(|text| time_of(text));
        let most = 64 * short_time.max(Duration::from_millis(1));
        assert!(time <= most, "{:.20}: {time:?}, {short_time:?} for a sixteenth", long);
    }
}

/// A stray control character, and a text in UTF-16 without its mark, are texts and no sheets.
#[test]
fn control_characters_have_a_line() {
    let text = text_with(&[]);
    let page = |bytes: &[u8]| commands::loads("tower.silo", bytes, Format::Table, Units::Whole);
    for (byte, name) in [(0x0c, "12"), (0x1a, "26"), (0x1b, "27"), (0, "0")] {
        let mut bytes = text.clone().into_bytes();
        bytes.insert(text.find("ratio").expect("a ratio"), byte);
        let outcome = page(&bytes);
        assert_eq!(outcome.status, 2);
        let said = format!("tower.silo:3: control character {name}; take it out, ");
        assert!(outcome.messages.starts_with(&said), "{}", outcome.messages);
    }
    let utf_16: Vec<u8> = text.encode_utf16().flat_map(u16::to_le_bytes).collect();
    let outcome = page(&utf_16);
    assert_eq!(outcome.status, 2);
    assert!(outcome.messages.contains("plain text in UTF-8"), "{}", outcome.messages);
}

/// An output that is read in place of its silo is known.
#[test]
fn outputs_are_no_silos() {
    let silo = sample("wheat-tower.silo");
    let formats = [Format::Table, Format::Csv, Format::CsvSemicolon, Format::Json];
    let mut outputs: Vec<Vec<u8>> = formats
        .iter()
        .map(|format| commands::loads("w.silo", &silo, *format, Units::Whole).output)
        .collect();
    outputs.push(commands::page("w.silo", &silo).output);
    outputs.push(commands::draw("w.silo", &silo, Units::Whole).output);
    outputs.extend(formats[..3].iter().map(|format| commands::catalogue(*format).output));
    for output in outputs {
        let outcome = commands::loads("out", &output, Format::Table, Units::Whole);
        assert_eq!(outcome.status, 2);
        let said = &outcome.messages;
        assert!(said.starts_with("out: this is ") && said.lines().count() == 1, "{said}");
        assert!(said.ends_with("; name the silo's text or sheet in its place\n"), "{said}");
    }
}

#[test]
fn a_text_that_is_no_utf8_has_a_line() {
    let outcome = commands::loads(
        "tower.silo",
        b"# tower\ndiameter = 5 m \xb3\n",
        Format::Table,
        Units::Whole,
    );
    assert_eq!(outcome.status, 2);
    assert_eq!(outcome.messages, "tower.silo:2: not UTF-8 text; save the file as UTF-8\n");
    let utf_16 =
        commands::loads("tower.silo", b"\xff\xfed\x00 \x00=\x00", Format::Table, Units::Whole);
    assert_eq!(utf_16.messages, "tower.silo:1: not UTF-8 text; save the file as UTF-8\n");
}

fn described(changes: &[(&str, &str)]) -> Description {
    let text = text_with(changes);
    text::read(&text).unwrap_or_else(|errors| panic!("{text}{errors:?}")).description
}

#[test]
fn lengths_are_exact() {
    let lengths = [
        ("5000 mm", 5000),
        ("5000mm", 5000),
        ("5 M", 5000),
        ("5.000 m", 5000),
        ("5.001 m", 5001),
        ("0.7 cm", 7),
        (".5 m", 500),
        ("5. m", 5000),
        ("0", 0),
        ("0.0", 0),
        ("000500 cm", 5000),
        ("4294967.295 m", u32::MAX),
        ("4294967295 mm", u32::MAX),
        ("5 ft", 1524),
        ("12' 6\"", 3810),
        ("16 ft 8 in", 5080),
        ("62.5 ft", 19050),
        ("125.0 inches", 3175),
        ("5 metres", 5000),
        ("500 centimètres", 5000),
    ];
    for (written, expected) in lengths {
        assert_eq!(
            described(&[("diameter", written)]).section,
            Section::Circle(expected),
            "{written}"
        );
    }
}

#[test]
fn products_are_exact() {
    let changes =
        [("weight", "8.765 kN/m³"), ("ratio", ".2"), ("friction", "655.35"), ("factor", "")];
    let product = described(&changes).product;
    assert_eq!(product, Product { weight: 8765, ratio: 20, friction: 65535, factor: 0 });
    let four = ["weight", "ratio", "friction", "factor"].map(|name| (name, "-"));
    let named = [&four[..], &[("product", "Dry_Sand"), ("wall", "CONCRETE")]].concat();
    assert_eq!(Product::from_catalogue(3, 1), Ok(described(&named).product));
}

#[test]
fn lists_are_exact() {
    let strakes = [
        ("8 x 1200 mm", vec![1200; 8]),
        ("2x1.2m, 900 mm", vec![1200, 1200, 900]),
        ("1200; 2 × 90, 3 * 80 cm", vec![12000, 900, 900, 800, 800, 800]),
        ("0 x 7 mm, 0", vec![0]),
        ("2 x 50 in, 1 m", vec![1270, 1270, 1000]),
        ("2 x 3 m", vec![3000, 3000]),
        ("3 x 2 m", vec![2000, 2000, 2000]),
    ];
    for (written, expected) in strakes {
        assert_eq!(described(&[("strakes", written)]).strakes, expected, "{written}");
    }
    let depths = [
        ("0, 0.5, 1 m", vec![0, 500, 1000]),
        ("0 mm, 0.5 m, 3 m", vec![0, 500, 3000]),
        ("7000, 10, 10 mm", vec![7000, 10, 10]),
        ("every 4 m", vec![0, 4000, 8000, 10000]),
        ("every 5000 mm", vec![0, 5000, 10000]),
        ("every 10 m", vec![0, 10000]),
        ("every 10000.000 mm", vec![0, 10000]),
        ("Every 5 m", vec![0, 5000, 10000]),
        ("Strake edges", vec![0, 2000, 4000, 6000, 8000, 10000]),
        ("at strake edges", vec![0, 2000, 4000, 6000, 8000, 10000]),
        ("every strake", vec![0, 2000, 4000, 6000, 8000, 10000]),
        ("every 12' 6\"", vec![0, 3810, 7620, 10000]),
    ];
    for (written, expected) in depths {
        assert_eq!(described(&[("depths", written)]).depths, expected, "{written}");
    }
}

#[test]
fn editors_and_spacing_make_no_difference() {
    let plain = described(&[]);
    let text = text_with(&[]);
    let windows = format!("\u{feff}# tower\r\n{}", text.replace('\n', "\r\n"));
    let spaced = text.replace(" = ", "=").replace("diameter", "\t DIAMETER ");
    let backwards: Vec<&str> = text.lines().rev().collect();
    for changed in [windows, spaced, backwards.join("\n")] {
        assert_eq!(text::read(&changed).expect(&changed).description, plain);
    }
}

const WORDS: [&str; 25] = [
    "diameter",
    "headroom",
    "sides",
    "product",
    "wall",
    "weight",
    "friction",
    "floor",
    "hopper run",
    "strakes",
    "depths",
    "every",
    "strake edges",
    "mm",
    "kN/m3",
    " x ",
    " = ",
    "0.40",
    "99999999999",
    "1,5",
    "-",
    "\u{b3}",
    "#",
    "\n",
    "\u{feff}",
];

/// One to four damages: letters left out, exchanged or put in, words put in, lines doubled or left out.
fn damaged(random: &mut Random, text: &str) -> String {
    let mut letters: Vec<char> = text.chars().collect();
    for _ in 0..1 + random.below(4) {
        let at = random.below(letters.len().max(1)).min(letters.len());
        match random.below(7) {
            0 if at < letters.len() => drop(letters.remove(at)),
            1 if at < letters.len() => {
                letters[at] = random.of(&['0', '9', '.', ',', '=', 'x', ' ', '\n', 'é'])
            }
            2 => letters
                .insert(at, random.of(&['1', '-', '+', 'm', ';', '\t', '\r', '\u{2009}', '×'])),
            3 => drop(letters.splice(at..at, random.of(&WORDS).chars())),
            4 => letters.truncate(at),
            5 => {
                let end = (at + random.below(30)).min(letters.len());
                drop(letters.splice(at..end, random.of(&WORDS).chars()));
            }
            _ => {
                let line: String = letters[at..].iter().take_while(|c| **c != '\n').collect();
                letters.extend("\n".chars().chain(line.chars()));
            }
        }
    }
    letters.into_iter().collect()
}

fn names_a_line(message: &Message, lines: usize) -> bool {
    match message.line {
        Some(line) => (1..=lines).contains(&line),
        None => message.words().starts_with("no line for "),
    }
}

#[test]
fn damaged_texts_give_errors_with_lines_and_never_a_panic() {
    let mut random = Random(71_019_914);
    let names = [
        "wheat-tower.silo",
        "barley-bin.silo",
        "cement.silo",
        "blank-friction.silo",
        "headroom-bin.silo",
        "blank-factor.silo",
    ];
    let texts = names.map(|name| String::from_utf8(sample(name)).expect(name));
    let (mut read, mut unread, mut accepted) = (0, 0, 0);
    for i in 0..60_000 {
        let text = damaged(&mut random, &texts[i % texts.len()]);
        match text::read(&text) {
            Ok(silo) => {
                read += 1;
                let sheet = silo.description.to_bytes();
                let outcome =
                    commands::loads("damaged.silo", text.as_bytes(), Format::Table, Units::Whole);
                let refused = silo::library::verdict(&sheet).is_err();
                assert_eq!(outcome.status, u8::from(refused), "{text}");
                accepted += u32::from(!refused);
            }
            Err(messages) => {
                unread += 1;
                assert!(!messages.is_empty(), "{text}");
                let lines = text.split(['\n', '\r']).count();
                let named = messages.iter().all(|message| names_a_line(message, lines));
                assert!(named, "{messages:?}\n{text}");
            }
        }
    }
    println!("60,000 damaged texts: {unread} not read, {read} read, {accepted} accepted");
    assert!(read > 1000 && unread > 1000 && accepted > 1000);
}
