//! Elements of an SVG as text. Whatever is given is escaped here.

use std::fmt::Write;

#[derive(Default)]
pub struct Svg {
    text: String,
}

/// An attribute's name and value.
pub type Attribute<'a> = (&'a str, String);

impl Svg {
    pub fn into_text(self) -> String {
        self.text
    }

    /// An element that has others inside, up to `close`.
    pub fn open(&mut self, name: &str, attributes: &[Attribute]) {
        self.start(name, attributes);
        self.text.push_str(">\n");
    }

    pub fn close(&mut self, name: &str) {
        let _ = writeln!(self.text, "</{name}>");
    }

    /// An element without content.
    pub fn empty(&mut self, name: &str, attributes: &[Attribute]) {
        self.start(name, attributes);
        self.text.push_str("/>\n");
    }

    /// An element with text.
    pub fn text(&mut self, name: &str, attributes: &[Attribute], content: &str) {
        self.start(name, attributes);
        let _ = writeln!(self.text, ">{}</{name}>", escaped(content));
    }

    /// A path with a title of its own, which a browser shows under the pointer.
    pub fn titled_path(&mut self, attributes: &[Attribute], title: &str) {
        self.start("path", attributes);
        let _ = writeln!(self.text, "><title>{}</title></path>", escaped(title));
    }

    fn start(&mut self, name: &str, attributes: &[Attribute]) {
        let _ = write!(self.text, "<{name}");
        for (attribute, value) in attributes {
            let _ = write!(self.text, " {attribute}=\"{}\"", escaped(value));
        }
    }
}

fn escaped(text: &str) -> String {
    let mut out = String::with_capacity(text.len());
    for character in text.chars() {
        match character {
            '&' => out.push_str("&amp;"),
            '<' => out.push_str("&lt;"),
            '>' => out.push_str("&gt;"),
            '"' => out.push_str("&quot;"),
            _ => out.push(character),
        }
    }
    out
}

/// A length or a place in pixels, to a tenth.
pub fn px(value: f64) -> String {
    let tenths = (value * 10.0).round() as i64;
    match tenths % 10 {
        0 => (tenths / 10).to_string(),
        _ => format!("{:.1}", tenths as f64 / 10.0),
    }
}

/// The width of a text, never less than what common fonts without serifs take.
pub fn text_width(text: &str, size: f64) -> f64 {
    0.65 * size * text.chars().count() as f64
}

/// The attributes of a text: where it stands, which of its ends stands there (start, middle or end), and its size.
pub fn placed(x: f64, y: f64, anchor: &str, size: f64) -> Vec<Attribute<'static>> {
    let mut attributes = vec![("x", px(x)), ("y", px(y)), ("font-size", px(size))];
    if anchor != "start" {
        attributes.push(("text-anchor", anchor.to_string()));
    }
    attributes
}

#[cfg(test)]
mod tests {
    use super::*;

    #[test]
    fn what_is_given_is_escaped() {
        let mut svg = Svg::default();
        svg.text("text", &[("a", "1 < 2 \"&\"".to_string())], "a > b & c");
        assert_eq!(svg.into_text(), "<text a=\"1 &lt; 2 &quot;&amp;&quot;\">a &gt; b &amp; c</text>\n");
    }

    #[test]
    fn pixels_have_tenths() {
        for (value, text) in [
            (0.0, "0"),
            (12.0, "12"),
            (12.34, "12.3"),
            (-0.04, "0"),
            (-1.25, "-1.3"),
            (99.96, "100"),
        ] {
            assert_eq!(px(value), text);
        }
    }
}
