//! Marks of an SVG, and how wide a text is.

use std::fmt::Write;

/// The width of every drawing, in its own units.
pub const WIDTH: f64 = 800.0;
pub const TEXT: f64 = 12.0;
pub const SMALL: f64 = 11.0;

/// Text between tags or in quotes.
pub fn escape(text: &str) -> String {
    let mut out = String::new();
    for c in text.chars() {
        match c {
            '&' => out.push_str("&amp;"),
            '<' => out.push_str("&lt;"),
            '>' => out.push_str("&gt;"),
            '"' => out.push_str("&quot;"),
            c => out.push(c),
        }
    }
    out
}

/// A coordinate with at most one decimal.
pub fn at(value: f64) -> String {
    let text = format!("{value:.1}");
    text.strip_suffix(".0").map_or(text.clone(), str::to_string)
}

/// Marks in the order in which they are drawn.
#[derive(Default)]
pub struct Marks(pub String);

impl Marks {
    pub fn raw(&mut self, text: &str) {
        self.0.push_str(text);
    }

    pub fn rect(&mut self, x: f64, y: f64, width: f64, height: f64, attributes: &str) {
        let (x, y, width, height) = (at(x), at(y), at(width), at(height));
        let _ = write!(
            self.0,
            "<rect x=\"{x}\" y=\"{y}\" width=\"{width}\" height=\"{height}\" {attributes}/>"
        );
    }

    pub fn line(&mut self, from: (f64, f64), to: (f64, f64), class: &str) {
        let d = format!("M{} {}L{} {}", at(from.0), at(from.1), at(to.0), at(to.1));
        self.path(&d, class);
    }

    pub fn path(&mut self, d: &str, class: &str) {
        let _ = write!(self.0, "<path d=\"{d}\" class=\"{class}\"/>");
    }

    pub fn circle(&mut self, x: f64, y: f64, radius: f64, class: &str) {
        let (x, y, r) = (at(x), at(y), at(radius));
        let _ = write!(
            self.0,
            "<circle cx=\"{x}\" cy=\"{y}\" r=\"{r}\" class=\"{class}\"/>"
        );
    }

    pub fn text(&mut self, x: f64, y: f64, class: &str, text: &str) {
        let (x, y, text) = (at(x), at(y), escape(text));
        let class = match class {
            "" => String::new(),
            class => format!(" class=\"{class}\""),
        };
        let _ = write!(self.0, "<text x=\"{x}\" y=\"{y}\"{class}>{text}</text>");
    }
}

/// The width of a text in Arial, or in a font of the same widths.
pub fn width(text: &str, size: f64, bold: bool) -> f64 {
    let thousandths: f64 = text.chars().map(letter).sum();
    let heavier = if bold { 1.08 } else { 1.0 };
    thousandths * size * heavier / 1000.0
}

fn letter(c: char) -> f64 {
    match c {
        'i' | 'j' | 'l' | '\'' => 222.0,
        ' ' | '!' | ',' | '.' | '/' | ':' | ';' | 'I' | '[' | ']' | '|' | 'f' | 't' => 278.0,
        '(' | ')' | '-' | '`' | 'r' => 333.0,
        'c' | 'k' | 's' | 'v' | 'x' | 'y' | 'z' | 'J' => 500.0,
        'm' | 'M' => 833.0,
        'w' | 'C' | 'D' | 'H' | 'N' | 'R' | 'U' => 722.0,
        'F' | 'T' | 'Z' => 611.0,
        'G' | 'O' | 'Q' => 778.0,
        'A' | 'B' | 'E' | 'K' | 'P' | 'S' | 'V' | 'X' | 'Y' => 667.0,
        'W' | '%' | '@' | '\u{2026}' => 1000.0,
        _ => 556.0,
    }
}

/// The text in lines of at most this width.
pub fn wrap(text: &str, size: f64, bold: bool, most: f64) -> Vec<String> {
    let mut lines: Vec<String> = Vec::new();
    for word in text.split(' ') {
        match lines.last_mut() {
            Some(line) if width(&format!("{line} {word}"), size, bold) <= most => {
                line.push(' ');
                line.push_str(word);
            }
            _ => lines.push(word.to_string()),
        }
    }
    lines
}

/// A drawing with its title and the words for those who do not see it.
pub struct Drawing {
    pub id: String,
    pub title: String,
    pub words: String,
    pub height: f64,
    pub marks: String,
}

impl Drawing {
    pub fn svg(&self) -> String {
        let (id, title, words) = (&self.id, escape(&self.title), escape(&self.words));
        let (width, height) = (at(WIDTH), at(self.height));
        format!(
            "<svg xmlns=\"http://www.w3.org/2000/svg\" viewBox=\"0 0 {width} {height}\" role=\"img\" \
             aria-labelledby=\"t{id} d{id}\"><title id=\"t{id}\">{title}</title><desc id=\"d{id}\">{words}</desc>\
             {}</svg>\n",
            self.marks
        )
    }

    /// The same inside another SVG, from a height on.
    pub fn nested(&self, y: f64) -> String {
        let (y, width, height) = (at(y), at(WIDTH), at(self.height));
        let title = escape(&self.title);
        format!(
            "<svg y=\"{y}\" width=\"{width}\" height=\"{height}\"><title>{title}</title>{}</svg>\n",
            self.marks
        )
    }
}

#[cfg(test)]
mod tests {
    use super::*;

    #[test]
    fn lines_are_no_wider_than_asked() {
        let lines = wrap(
            "says nothing: the request of box 3 is missing",
            SMALL,
            false,
            80.0,
        );
        assert!(lines.len() > 2);
        assert!(lines.iter().all(|line| width(line, SMALL, false) <= 80.0));
        assert_eq!(
            lines.join(" "),
            "says nothing: the request of box 3 is missing"
        );
    }

    #[test]
    fn marks_in_text_are_escaped() {
        assert_eq!(escape("<a & \"b\">"), "&lt;a &amp; &quot;b&quot;&gt;");
        assert_eq!((at(3.0), at(2.55)), ("3".to_string(), "2.5".to_string()));
    }
}
