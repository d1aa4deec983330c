//! A picture as text: shapes one after the other, with what they say made safe.
use std::fmt::Write;

pub struct Svg(String);

/// How a text stands to its place.
#[derive(Clone, Copy)]
pub enum Anchor {
    Start,
    Middle,
    End,
}

impl Anchor {
    fn word(self) -> &'static str {
        match self {
            Anchor::Start => "start",
            Anchor::Middle => "middle",
            Anchor::End => "end",
        }
    }
}

impl Svg {
    pub fn new(width: f64, height: f64, title: &str, style: &str) -> Svg {
        let mut svg = Svg(String::new());
        svg.put(format_args!("<?xml version=\"1.0\" encoding=\"UTF-8\"?>\n"));
        svg.put(format_args!(
            "<svg xmlns=\"http://www.w3.org/2000/svg\" width=\"{width}\" height=\"{height}\" viewBox=\"0 0 {width} {height}\">\n"
        ));
        svg.put(format_args!("<title>{}</title>\n<style>{style}</style>\n", safe(title)));
        svg.put(format_args!("<rect class=\"paper\" width=\"{width}\" height=\"{height}\"/>\n"));
        svg
    }

    /// What belongs together, under a name that no other group has, moved to its place.
    pub fn group(&mut self, name: &str, x: f64, y: f64, inside: impl FnOnce(&mut Svg)) {
        self.put(format_args!("<g id=\"{}\" transform=\"translate({x} {y})\">\n", safe(name)));
        inside(self);
        self.put(format_args!("</g>\n"));
    }

    pub fn path(&mut self, class: &str, path: &str) {
        self.put(format_args!("<path class=\"{class}\" d=\"{path}\"/>\n"));
    }

    pub fn circle(&mut self, class: &str, x: f64, y: f64, radius: f64) {
        self.put(format_args!("<circle class=\"{class}\" cx=\"{x}\" cy=\"{y}\" r=\"{radius}\"/>\n"));
    }

    pub fn text(&mut self, class: &str, anchor: Anchor, x: f64, y: f64, says: &str) {
        let anchor = anchor.word();
        self.put(format_args!("<text class=\"{class}\" text-anchor=\"{anchor}\" x=\"{x}\" y=\"{y}\">{}</text>\n", safe(says)));
    }

    pub fn end(mut self) -> String {
        self.put(format_args!("</svg>\n"));
        self.0
    }

    fn put(&mut self, piece: std::fmt::Arguments) {
        self.0.write_fmt(piece).expect("a string takes all that is written to it");
    }
}

/// With nothing in it that an XML reader would take for more than letters, and no letter that it must refuse.
fn safe(text: &str) -> String {
    let mut safe = String::with_capacity(text.len());
    for letter in text.chars() {
        match letter {
            '&' => safe.push_str("&amp;"),
            '<' => safe.push_str("&lt;"),
            '>' => safe.push_str("&gt;"),
            '"' => safe.push_str("&quot;"),
            '\'' => safe.push_str("&apos;"),
            '\u{fffe}' | '\u{ffff}' => safe.push('?'),
            control if control.is_control() => safe.push('?'),
            other => safe.push(other),
        }
    }
    safe
}

#[cfg(test)]
mod tests {
    use super::safe;

    #[test]
    fn letters_of_the_notation_are_written_as_words() {
        assert_eq!(safe("a<b>&\"c'"), "a&lt;b&gt;&amp;&quot;c&apos;");
        assert_eq!(safe("ä\n\u{1}\u{ffff}"), "ä???");
    }
}
