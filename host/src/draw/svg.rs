//! Shapes and text of a drawing as SVG. Positions are in pixels, 1/96 inch.

use super::wrap::width;

/// A4, lying: 297 by 210 mm.
const WIDTH: f64 = 1122.52;
const HEIGHT: f64 = 793.7;

/// Sizes of type. 7 pt, the least that can be read in print, is 9.34.
pub const SMALL: f64 = 9.5;
pub const NOTE: f64 = 11.0;
pub const TITLE: f64 = 18.0;

/// A dimension shorter than this has its arrows outside.
pub const SHORTEST: f64 = 18.0;
/// How far arrows that stand outside reach.
pub const OUTSIDE: f64 = 10.0;

const STYLE: &str = "\
@page { size: A4 landscape; margin: 0 }
text { font-family: 'DejaVu Sans', Arial, Helvetica, sans-serif; font-size: 10.5px; fill: #222 }
.title { font-size: 18px; font-weight: bold }
.small { font-size: 9.5px; fill: #444 }
.tight { font-size: 9.5px }
.note { font-size: 11px }
.head { font-weight: bold }
.sub { font-size: 9.4px }
.start { text-anchor: start } .middle { text-anchor: middle } .end { text-anchor: end }
line, polyline, polygon, path { fill: none; stroke: #222; stroke-width: 1 }
.behind { fill: #fff; stroke: none }
.grain { fill: #f3e3bd; stroke: none }
.wall { stroke-width: 2.5; stroke-linejoin: round; stroke-linecap: round }
.edge { stroke: #8a7440; stroke-width: 0.8 }
.axis { stroke: #777; stroke-width: 0.7; stroke-dasharray: 12 3 2 3 }
.dimension { stroke: #555; stroke-width: 0.8 }
.extension { stroke: #888; stroke-width: 0.5 }
.leader { stroke: #bbb; stroke-width: 0.6 }
.grid { stroke: #ddd; stroke-width: 0.7 }
.frame { stroke: #222; stroke-width: 1 }
.rule { stroke: #999; stroke-width: 0.5 }
.horizontal { stroke: #1d5fa6; stroke-width: 2.1 } .friction { stroke: #b8431b; stroke-width: 1.3 }
.patch { stroke: #3f7d2e; stroke-width: 1.5; stroke-dasharray: 9 2.5 2 2.5 }
.filling { stroke-dasharray: 6 3.5 }
circle.point { fill: #fff; stroke: #222; stroke-width: 1 }
circle.patch { fill: #3f7d2e; stroke: none }
circle.horizontal { fill: #1d5fa6; stroke: none } circle.friction { fill: #b8431b; stroke: none }
.arrow { fill: #555; stroke: none }
";

pub type Point = (f64, f64);

#[derive(Default)]
pub struct Svg {
    body: String,
}

/// Pixels to one decimal.
fn pixels(points: &[Point]) -> String {
    points.iter().map(|(x, y)| format!("{x:.1},{y:.1}")).collect::<Vec<String>>().join(" ")
}

/// Text as XML 1.0 has it; characters that it does not allow, and control characters, are left out.
pub fn escape(text: &str) -> String {
    let allowed = |c: &char| !c.is_control() && !['\u{fffe}', '\u{ffff}'].contains(c);
    let escaped = text.chars().filter(allowed).map(|c| match c {
        '&' => "&amp;".to_string(),
        '<' => "&lt;".to_string(),
        '>' => "&gt;".to_string(),
        '"' => "&quot;".to_string(),
        '\'' => "&apos;".to_string(),
        c => c.to_string(),
    });
    escaped.collect()
}

/// The program's own text: letters and digits that follow a symbol of one letter and `_` are set
/// lower. A space of no width keeps what follows them at its distance.
fn markup(text: &str) -> String {
    let words = text.split(' ').map(|word| {
        let symbol = |base: &str| base.rsplit('/').next().is_some_and(|last| last.len() == 1);
        let Some((base, low)) = word.split_once('_').filter(|(base, _)| symbol(base)) else {
            return escape(word);
        };
        let end = low.find(|c: char| !c.is_alphanumeric()).unwrap_or(low.len());
        let (base, low, rest) = (escape(base), &low[..end], escape(&low[end..]));
        format!(
            "{base}<tspan class=\"sub\" dy=\"2.5\">{low}</tspan>\
             <tspan dy=\"-2.5\">\u{200b}{rest}</tspan>"
        )
    });
    words.collect::<Vec<String>>().join(" ")
}

impl Svg {
    pub fn line(&mut self, class: &str, (x1, y1): Point, (x2, y2): Point) {
        self.body += &format!(
            "<line class=\"{class}\" x1=\"{x1:.1}\" y1=\"{y1:.1}\" \
             x2=\"{x2:.1}\" y2=\"{y2:.1}\"/>\n"
        );
    }

    pub fn polyline(&mut self, class: &str, points: &[Point]) {
        self.body += &format!("<polyline class=\"{class}\" points=\"{}\"/>\n", pixels(points));
    }

    pub fn polygon(&mut self, class: &str, points: &[Point]) {
        self.body += &format!("<polygon class=\"{class}\" points=\"{}\"/>\n", pixels(points));
    }

    pub fn rectangle(&mut self, class: &str, (x1, y1): Point, (x2, y2): Point) {
        self.polygon(class, &[(x1, y1), (x2, y1), (x2, y2), (x1, y2)]);
    }

    pub fn dot(&mut self, class: &str, at: Point) {
        self.circle(class, at, 2.2);
    }

    pub fn circle(&mut self, class: &str, (x, y): Point, radius: f64) {
        self.body +=
            &format!("<circle class=\"{class}\" cx=\"{x:.1}\" cy=\"{y:.1}\" r=\"{radius:.1}\"/>\n");
    }

    /// A circle's arc from the point left of the centre upwards by an angle, in radians.
    pub fn arc(&mut self, class: &str, (x, y): Point, radius: f64, angle: f64) {
        let (end_x, end_y) = (x - radius * angle.cos(), y - radius * angle.sin());
        self.body += &format!(
            "<path class=\"{class}\" d=\"M {:.1} {y:.1} A {radius:.1} {radius:.1} 0 0 1 \
             {end_x:.1} {end_y:.1}\"/>\n",
            x - radius
        );
    }

    /// The program's text, whose letters stand on `y`; the class says which end is at `x`.
    pub fn text(&mut self, class: &str, at: Point, text: &str) {
        self.marked(class, at, &markup(text));
    }

    /// A person's text as it is.
    pub fn plain(&mut self, class: &str, at: Point, text: &str) {
        self.marked(class, at, &escape(text));
    }

    fn marked(&mut self, class: &str, (x, y): Point, text: &str) {
        self.body += &format!("<text class=\"{class}\" x=\"{x:.1}\" y=\"{y:.1}\">{text}</text>\n");
    }

    /// Small text that begins or, with `end`, ends at `x`, over lines that it breaks.
    pub fn over(&mut self, class: &str, (x, y): Point, text: &str) {
        let wide = width(text, SMALL);
        let left = if class.starts_with("end") { x - wide } else { x };
        self.rectangle("behind", (left - 1.0, y - 9.0), (left + wide + 1.0, y + 3.0));
        self.text(&format!("{class} small"), (x, y), text);
    }

    /// Text that reads downwards.
    pub fn upright(&mut self, class: &str, (x, y): Point, text: &str) {
        let text = markup(text);
        self.body += &format!(
            "<text class=\"{class}\" \
             transform=\"translate({x:.1} {y:.1}) rotate(90)\">{text}</text>\n"
        );
    }

    /// A line with an arrow head at its end.
    pub fn arrow(&mut self, from: Point, to: Point) {
        self.line("dimension", from, to);
        let length = (to.0 - from.0).hypot(to.1 - from.1).max(1e-9);
        let (dx, dy) = ((to.0 - from.0) / length, (to.1 - from.1) / length);
        let back = (to.0 - 7.0 * dx, to.1 - 7.0 * dy);
        let side = |k: f64| (back.0 - k * dy, back.1 + k * dx);
        self.polygon("arrow", &[to, side(2.5), side(-2.5)]);
    }

    /// A dimension from one point to another, which lies to its right or below; arrows at both
    /// ends, from outside where it is short.
    pub fn dimension(&mut self, from: Point, to: Point) {
        let length = to.0 - from.0 + to.1 - from.1;
        if length >= SHORTEST {
            let middle = ((from.0 + to.0) / 2.0, (from.1 + to.1) / 2.0);
            self.arrow(middle, from);
            return self.arrow(middle, to);
        }
        let (dx, dy) = if to.0 - from.0 > to.1 - from.1 { (OUTSIDE, 0.0) } else { (0.0, OUTSIDE) };
        self.arrow((from.0 - dx, from.1 - dy), from);
        self.line("dimension", from, to);
        self.arrow((to.0 + dx, to.1 + dy), to);
    }

    /// How far behind the end of a dimension of that length its text may stand.
    pub fn clear_of(length: f64) -> f64 {
        4.0 + if length < SHORTEST { OUTSIDE } else { 0.0 }
    }

    /// The page of A4, lying, of a silo's file; `more` is style of its own.
    pub fn page(self, title: &str, file: &str, more: &str) -> String {
        format!(
            "<svg xmlns=\"http://www.w3.org/2000/svg\" width=\"297mm\" height=\"210mm\" \
             viewBox=\"0 0 {WIDTH} {HEIGHT}\">\n\
             <title>{}</title>\n<desc>{}</desc>\n<style>\n{STYLE}{more}</style>\n\
             <rect width=\"{WIDTH}\" height=\"{HEIGHT}\" fill=\"#fff\"/>\n{}</svg>\n",
            escape(title),
            escape(file),
            self.body
        )
    }
}

#[cfg(test)]
mod tests {
    use super::*;

    #[test]
    fn a_persons_text_is_no_markup() {
        assert_eq!(
            escape("a<b> & \"c\" 'd'\u{1}\u{ffff}é"),
            "a&lt;b&gt; &amp; &quot;c&quot; &apos;d&apos;é"
        );
        let mut svg = Svg::default();
        svg.plain("start", (0.0, 0.0), "A_12");
        assert!(svg.body.contains(">A_12<"));
    }

    #[test]
    fn what_follows_a_symbol_is_not_set_lower() {
        let comma =
            "p<tspan class=\"sub\" dy=\"2.5\">p</tspan><tspan dy=\"-2.5\">\u{200b},</tspan>";
        assert_eq!(markup("p_p,"), comma);
        assert_eq!(markup("no_symbol"), "no_symbol");
        assert_eq!(markup("h/p_p,"), format!("h/{comma}"));
    }
}
