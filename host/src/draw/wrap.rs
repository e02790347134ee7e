//! How wide a text stands, and its lines within a width.

/// At least the width of a character in parts of the type's size. DejaVu Sans, the first font of
/// the drawing, is wider than those after it.
fn em(c: char) -> f64 {
    match c {
        '\u{200b}' => 0.0,
        '\u{2009}' => 0.2,
        '\u{a0}' => 0.33,
        c if " ,.".contains(c) => 0.33,
        c if "!'()-/:;[\\]|fijlrtIJ".contains(c) => 0.42,
        c if "ckszvxy".contains(c) => 0.6,
        c if "mwMW@%#&+<=>^~".contains(c) => 1.0,
        'A'..='Z' => 0.8,
        c if c.is_ascii() => 0.64,
        'α' | 'θ' | '°' => 0.66,
        '\u{80}'..='\u{ffff}' => 1.1,
        _ => 1.4,
    }
}

/// At least the width of a text in pixels, in a type of that size.
pub fn width(text: &str, size: f64) -> f64 {
    text.chars().map(em).sum::<f64>() * size
}

/// A text in lines, each at most as many pixels wide as `most` says of its number, which no later line exceeds; broken at spaces. A
/// word that is wider than a line is broken within. A thin space, between digits, breaks no line.
pub fn lines(text: &str, size: f64, most: impl Fn(usize) -> f64) -> Vec<String> {
    let mut lines = vec![String::new()];
    let mut wide = 0.0;
    for word in text.split([' ', '\t']).filter(|word| !word.is_empty()) {
        for piece in pieces(word, size, most(lines.len())) {
            let widest = most(lines.len() - 1);
            let line = lines.last_mut().expect("a first line");
            let of_piece = width(&piece, size);
            let longer = wide + width(" ", size) + of_piece;
            match line.is_empty() {
                false if longer <= widest => {
                    *line += " ";
                    *line += &piece;
                    wide = longer;
                    continue;
                }
                true => *line = piece,
                false => lines.push(piece),
            }
            wide = of_piece;
        }
    }
    lines
}

/// A word in pieces that each fit into a line.
fn pieces(word: &str, size: f64, most: f64) -> Vec<String> {
    let mut pieces = vec![String::new()];
    let mut wide = 0.0;
    for c in word.chars() {
        let piece = pieces.last_mut().expect("a first piece");
        wide += em(c) * size;
        match piece.is_empty() || wide <= most {
            true => piece.push(c),
            false => {
                pieces.push(c.to_string());
                wide = em(c) * size;
            }
        }
    }
    pieces
}

#[cfg(test)]
mod tests {
    use super::*;

    #[test]
    fn no_character_is_lost_and_no_line_too_wide() {
        let texts =
            ["", "a few words that go over some lines", &"W".repeat(60), "x yz ЩЩЩЩЩЩЩ 粮仓粮仓"];
        for text in texts {
            let lines = lines(text, 9.5, |_| 100.0);
            assert!(lines.iter().all(|line| width(line, 9.5) <= 100.0), "{lines:?}");
            let plain = |text: &str| text.split_whitespace().collect::<String>();
            assert_eq!(plain(&lines.concat()), plain(text));
        }
        assert_eq!(lines("two words", 10.0, |_| 1000.0), ["two words"]);
        let narrower = |line: usize| if line == 0 { 60.0 } else { 30.0 };
        assert_eq!(lines("one two one two", 10.0, narrower), ["one two", "one", "two"]);
    }
}
