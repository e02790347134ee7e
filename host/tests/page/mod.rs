//! A drawing read back from its SVG: texts with the room that they take, the points of its shapes, and
//! what makes it unfit to be printed. An element of the drawing stands in a line.
#![allow(dead_code)]

type Point = (f64, f64);

/// Widths of DejaVu Sans from space to tilde, hundredths of the type's size, rounded up.
const WIDTHS: [u8; 95] = [
    32, 41, 46, 84, 64, 95, 78, 28, 40, 40, 50, 84, 32, 37, 32, 34, 64, 64, 64, 64, 64, 64, 64, 64,
    64, 64, 34, 34, 84, 84, 84, 54, 100, 69, 69, 70, 78, 64, 58, 78, 76, 30, 30, 66, 56, 87, 75,
    79, 61, 79, 70, 64, 62, 74, 69, 99, 69, 62, 69, 40, 34, 40, 84, 50, 50, 62, 64, 55, 64, 62, 36,
    64, 64, 28, 28, 58, 28, 98, 64, 62, 64, 64, 42, 53, 40, 64, 60, 82, 60, 60, 53, 64, 34, 64, 84,
];
/// The widest of bold letters beside plain ones.
const BOLD: f64 = 1.2;
/// Above and below the line on which letters stand, in parts of the type's size.
const ASCENT: f64 = 0.76;
const DESCENT: f64 = 0.24;

/// Words with the least size of type in them, and the corners of their room.
#[derive(Debug)]
pub struct Text {
    pub words: String,
    pub least_size: f64,
    pub low: Point,
    pub high: Point,
}

pub struct Page {
    pub texts: Vec<Text>,
    /// Every point of a line, shape or arc.
    pub points: Vec<Point>,
    pub style: String,
    elements: Vec<(String, String, Vec<Point>)>,
}

/// The value of an attribute, or nothing.
fn attribute<'a>(element: &'a str, name: &str) -> &'a str {
    let start = element.find(&format!(" {name}=\"")).map(|at| at + name.len() + 3);
    let value = start.map(|start| &element[start..]).unwrap_or("");
    value.split('"').next().unwrap_or("")
}

fn numbers(text: &str) -> Vec<f64> {
    let separator = |c: char| !c.is_ascii_digit() && c != '.' && c != '-';
    text.split(separator).filter_map(|number| number.parse().ok()).collect()
}

fn points(element: &str) -> Vec<Point> {
    let of = |names: [&str; 2]| names.map(|name| numbers(attribute(element, name))).concat();
    let numbers = match element.split([' ', '>']).next() {
        Some("<line") => [of(["x1", "y1"]), of(["x2", "y2"])].concat(),
        Some("<circle") => of(["cx", "cy"]),
        // M x y A rx ry 0 0 1 x y
        Some("<path") => {
            let numbers = numbers(attribute(element, "d"));
            [&numbers[..2], &numbers[7..]].concat()
        }
        Some("<polyline" | "<polygon") => numbers(attribute(element, "points")),
        _ => Vec::new(),
    };
    numbers.chunks_exact(2).map(|pair| (pair[0], pair[1])).collect()
}

/// The last value of a property in the rules of an element's classes.
fn property<'a>(style: &'a str, element: &str, classes: &str, name: &str) -> Option<&'a str> {
    let rules = style.split_inclusive('}').filter_map(|rule| rule.trim().split_once(" {"));
    let applies = |selector: &str| {
        selector == element || classes.split(' ').any(|class| selector == format!(".{class}"))
    };
    let mut values = rules.filter(|(selector, _)| applies(selector)).flat_map(|(_, body)| {
        body.trim_end_matches('}').split(';').filter_map(|part| part.split_once(": "))
    });
    values.rfind(|(key, _)| key.trim() == name).map(|(_, value)| value.trim())
}

fn size(style: &str, element: &str, classes: &str) -> Option<f64> {
    let value = property(style, element, classes, "font-size")?;
    value.strip_suffix("px").expect("pixels").parse().ok()
}

fn em(c: char) -> f64 {
    match c {
        ' '..='~' => f64::from(WIDTHS[c as usize - 32]) / 100.0,
        '\u{a0}' => 0.32,
        '\u{2009}' => 0.2,
        '\u{200b}' => 0.0,
        '°' => 0.5,
        'α' | 'θ' => 0.66,
        _ => 1.1,
    }
}

/// Of a table's numbers.
fn stands_on_its_line(c: char) -> bool {
    c.is_ascii_digit() || "k =-.\u{2009}\u{200b}".contains(c)
}

/// Words of an element in pieces, each with the classes of its `tspan`.
fn pieces(content: &str) -> Vec<(&str, String)> {
    let mut classes = "";
    let mut pieces = Vec::new();
    for part in content.split_inclusive('<').flat_map(|part| part.split_inclusive('>')) {
        let part = part.trim_end_matches('<');
        match part.strip_suffix('>') {
            Some(tag) => classes = attribute(tag, "class"),
            None => pieces.push((classes, unescaped(part))),
        }
    }
    pieces
}

fn unescaped(text: &str) -> String {
    let marks = [("&lt;", "<"), ("&gt;", ">"), ("&quot;", "\""), ("&apos;", "'"), ("&amp;", "&")];
    assert!(!text.contains(['<', '>', '"', '\'']), "{text}");
    marks.iter().fold(text.to_string(), |text, (mark, c)| text.replace(mark, c))
}

fn text(style: &str, line: &str) -> Text {
    let (tag, content) = line.split_once('>').expect("a tag");
    let content = content.strip_suffix("</text>").expect("an end");
    let classes = attribute(tag, "class");
    let own = size(style, "text", classes).expect("a size");
    let weight = property(style, "text", classes, "font-weight");
    let bold = if weight == Some("bold") { BOLD } else { 1.0 };
    let pieces: Vec<(f64, String)> = pieces(content)
        .into_iter()
        .map(|(classes, words)| (size(style, "tspan", classes).unwrap_or(own), words))
        .collect();
    let wide = |(size, words): &(f64, String)| words.chars().map(em).sum::<f64>() * size * bold;
    let width: f64 = pieces.iter().map(wide).sum();
    let start = match property(style, "text", classes, "text-anchor") {
        Some("middle") => -width / 2.0,
        Some("end") => -width,
        _ => 0.0,
    };
    let lowered = numbers(attribute(content, "dy")).first().copied().unwrap_or(0.0);
    let words: String = pieces.iter().map(|(_, words)| &**words).collect();
    let descent = if words.chars().all(stands_on_its_line) { 0.0 } else { DESCENT };
    let box_of = [(start, -ASCENT * own), (start + width, descent * own + lowered)];
    let [low, high] = placed(tag, box_of);
    let least_size = pieces.iter().map(|(size, _)| *size).fold(own, f64::min);
    Text { words: words.replace(['\u{200b}', '\u{2009}'], ""), least_size, low, high }
}

/// A text's room on the page; a turned text reads downwards.
fn placed(tag: &str, [(left, top), (right, bottom)]: [Point; 2]) -> [Point; 2] {
    if let [x, y, turn] = numbers(attribute(tag, "transform"))[..] {
        assert_eq!(turn, 90.0);
        return [(x - bottom, y + left), (x - top, y + right)];
    }
    let [x, y] = ["x", "y"].map(|name| attribute(tag, name).parse::<f64>().expect("a position"));
    [(x + left, y + top), (x + right, y + bottom)]
}

impl Page {
    pub fn read(svg: &str) -> Page {
        let (head, body) = svg.split_once("</style>\n").expect("a style");
        assert!(head.contains("width=\"297mm\" height=\"210mm\" viewBox=\"0 0 1122.52 793.7\""));
        let style = head.split_once("<style>\n").expect("a style").1.to_string();
        let lines = || body.lines().filter(|line| !line.starts_with("<rect") && *line != "</svg>");
        let texts = lines().filter(|line| line.starts_with("<text"));
        let texts = texts.map(|line| text(&style, line)).collect();
        let shapes = lines().filter(|line| !line.starts_with("<text"));
        let elements: Vec<(String, String, Vec<Point>)> = shapes
            .map(|line| {
                let name = line.split(' ').next().unwrap_or("").to_string();
                let points = points(line);
                assert!(!points.is_empty(), "{line}");
                (name, attribute(line, "class").to_string(), points)
            })
            .collect();
        let points = elements.iter().flat_map(|(_, _, points)| points.clone()).collect();
        Page { texts, points, style, elements }
    }

    /// The lines and areas of a class.
    pub fn shapes(&self, class: &'static str) -> impl Iterator<Item = &Vec<Point>> + Clone {
        let of_class = move |element: &&(String, String, Vec<Point>)| element.1 == class;
        self.elements.iter().filter(of_class).map(|(_, _, points)| points)
    }

    /// The middles of the dots of a class.
    pub fn circles(&self, class: &'static str) -> impl Iterator<Item = Point> + '_ {
        let dots =
            self.elements.iter().filter(move |(name, of, _)| name == "<circle" && of == class);
        dots.map(|(_, _, points)| points[0])
    }

    /// Type that cannot be read in print, what stands over the margins, text on other text, and arrows
    /// in text.
    pub fn faults(&self) -> Vec<String> {
        [unreadable(self), outside(self), overlapping(self), struck(self)].concat()
    }

    /// Of these words, those that stand nowhere.
    pub fn unsaid(&self, said: &[String]) -> Vec<String> {
        let page: String = self.texts.iter().map(|text| bare(&text.words)).collect();
        let unsaid = said.iter().filter(|said| !page.contains(&bare(said)));
        unsaid.map(|said| format!("does not say {said}")).collect()
    }
}

/// 7 pt
const LEAST_TYPE: f64 = 7.0 * 96.0 / 72.0;
/// 10 mm of a page of 297 by 210 mm
const MARGIN: f64 = 10.0 * 96.0 / 25.4;
const PAPER: (f64, f64) = (297.0 * 96.0 / 25.4, 210.0 * 96.0 / 25.4);

fn unreadable(page: &Page) -> Vec<String> {
    let small = page.texts.iter().filter(|text| text.least_size < LEAST_TYPE);
    small.map(|text| format!("under 7 pt: {text:?}")).collect()
}

fn outside(page: &Page) -> Vec<String> {
    let corners = page.texts.iter().flat_map(|text| [text.low, text.high]);
    let all = corners.chain(page.points.iter().copied());
    let outside =
        all.filter(|(x, y)| x.min(*y) < MARGIN || *x > PAPER.0 - MARGIN || *y > PAPER.1 - MARGIN);
    outside.map(|point| format!("over the margins: {point:?}")).collect()
}

/// Texts side by side stand at least so far apart, more than a space of their own.
const BESIDE: f64 = 5.0;

fn overlapping(page: &Page) -> Vec<String> {
    let meet = |a: &Text, b: &Text| {
        let level = a.low.0 < b.high.0 + BESIDE && b.low.0 < a.high.0 + BESIDE;
        level && a.low.1 < b.high.1 && b.low.1 < a.high.1
    };
    let mut faults = Vec::new();
    for (i, one) in page.texts.iter().enumerate() {
        let others = page.texts[i + 1..].iter().filter(|other| meet(one, other));
        faults.extend(others.map(|other| format!("{one:?} on {other:?}")));
    }
    faults
}

/// A line below a text may touch its lowered letters.
const LOWERED: f64 = 3.0;

/// Texts with an arrow head or a dimension in them, which is level or upright.
fn struck(page: &Page) -> Vec<String> {
    let heads = page.shapes("arrow").flatten().map(|point| [*point, *point]);
    let lines = page.shapes("dimension").filter(|line| line.len() == 2);
    let lines: Vec<[Point; 2]> = heads.chain(lines.map(|line| [line[0], line[1]])).collect();
    let meet = |(a, b): Point, low: f64, high: f64| a.min(b) < high && low < a.max(b);
    let strikes = |[one, other]: &[Point; 2], text: &Text| {
        meet((one.0, other.0), text.low.0, text.high.0)
            && meet((one.1, other.1), text.low.1, text.high.1 - LOWERED)
    };
    let struck = page.texts.iter().filter(|text| lines.iter().any(|line| strikes(line, text)));
    struck.map(|text| format!("struck through: {text:?}")).collect()
}

/// Without spaces and the mark of a lowered letter.
pub fn bare(text: &str) -> String {
    text.chars().filter(|c| !c.is_whitespace() && *c != '_' && *c != '\u{200b}').collect()
}
