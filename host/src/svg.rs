//! Pieces of an SVG.
use crate::image::Image;

/// Of the text, in units of the screen.
pub const FONT: f64 = 13.0;
const LINE: f64 = 18.0;

/// Text as an element may have it.
pub fn escaped(text: &str) -> String {
    let mut safe = String::new();
    for character in text.chars() {
        match character {
            '&' => safe += "&amp;",
            '<' => safe += "&lt;",
            '>' => safe += "&gt;",
            '"' => safe += "&quot;",
            _ if character.is_control() => safe.push('\u{fffd}'),
            '\u{fffe}' | '\u{ffff}' => safe.push('\u{fffd}'),
            _ => safe.push(character),
        }
    }
    safe
}

/// A path that fills the pixels which are inside: a rectangle for each run in a row.
pub fn runs(image: &Image, inside: impl Fn(u32, u32) -> bool) -> String {
    let mut path = String::new();
    for y in 0..image.height {
        let mut x = 0;
        while x < image.width {
            let start = x;
            while x < image.width && inside(x, y) {
                x += 1;
            }
            match x - start {
                0 => x += 1,
                length => path += &format!("M{start} {y}h{length}v1h-{length}z"),
            }
        }
    }
    path
}

/// What a picture has to show.
pub struct Bounds {
    pub left: f64,
    pub top: f64,
    pub right: f64,
    pub bottom: f64,
}

impl Bounds {
    pub fn of(image: &Image) -> Self {
        Bounds {
            left: 0.0,
            top: 0.0,
            right: f64::from(image.width),
            bottom: f64::from(image.height),
        }
    }

    /// Makes room for a pixel.
    pub fn reach(&mut self, x: f64, y: f64) {
        self.left = self.left.min(x);
        self.right = self.right.max(x + 1.0);
        self.top = self.top.min(y);
        self.bottom = self.bottom.max(y + 1.0);
    }

    /// Lines of text below the picture, each with its colour, and room for them; a unit of the picture is `zoom` units of the screen wide.
    pub fn legend(&mut self, lines: &[(&str, String)], zoom: f64) -> String {
        let (left, top) = (self.left, self.bottom + LINE / zoom);
        let mut text = String::new();
        for (place, (colour, words)) in lines.iter().enumerate() {
            let y = top + LINE / zoom * place as f64;
            self.right = self.right.max(left + text_width(words) * FONT / zoom);
            text += &format!(
                "<text x=\"{left:.2}\" y=\"{y:.2}\" fill=\"{colour}\">{}</text>\n",
                escaped(words)
            );
        }
        self.bottom = top + LINE / zoom * lines.len() as f64;
        text
    }

    /// The element's start, with a margin about the picture, all of it on white.
    pub fn start(&self, zoom: f64, font: f64) -> String {
        let margin = 10.0 / zoom;
        let (left, top) = (self.left - margin, self.top - margin);
        let width = self.right - left + margin;
        let height = self.bottom - top + margin;
        format!(
            "<svg xmlns=\"http://www.w3.org/2000/svg\" width=\"{:.0}\" height=\"{:.0}\" \
viewBox=\"{left:.2} {top:.2} {width:.2} {height:.2}\" font-family=\"monospace\" font-size=\"{font:.3}\">\n\
<rect x=\"{left:.2}\" y=\"{top:.2}\" width=\"{width:.2}\" height=\"{height:.2}\" fill=\"#fff\"/>\n",
            width * zoom,
            height * zoom
        )
    }
}

/// At least the width of a line of text, in units of its font's size; letters of other scripts can be as wide as high.
fn text_width(line: &str) -> f64 {
    let width = |letter: char| if letter.is_ascii() { 0.62 } else { 1.1 };
    line.chars().map(width).sum()
}
