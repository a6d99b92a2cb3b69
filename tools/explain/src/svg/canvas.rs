//! SVG elements as text.

use super::font::Font;
use super::point::Point;

/// What has been drawn.
#[derive(Default)]
pub struct Canvas {
    body: String,
}

/// Signs that mean something in SVG are written in another way.
fn escaped(text: &str) -> String {
    text.replace('&', "&amp;")
        .replace('<', "&lt;")
        .replace('>', "&gt;")
        .replace('"', "&quot;")
}

impl Canvas {
    /// An element with attributes and nothing in it.
    pub fn element(&mut self, name: &str, attributes: &str) {
        self.body.push_str(&format!("<{name} {attributes}/>\n"));
    }

    /// Opens a group with a text that shows when it is pointed at.
    pub fn open(&mut self, attributes: &str, title: &str) {
        let title = escaped(title);
        let group = format!("<g {attributes}><title>{title}</title>\n");
        self.body.push_str(&group);
    }

    pub fn close(&mut self) {
        self.body.push_str("</g>\n");
    }

    pub fn line(&mut self, from: Point, to: Point, attributes: &str) {
        let (x1, y1, x2, y2) = (from.x, from.y, to.x, to.y);
        self.element(
            "line",
            &format!("x1=\"{x1:.1}\" y1=\"{y1:.1}\" x2=\"{x2:.1}\" y2=\"{y2:.1}\" {attributes}"),
        );
    }

    pub fn circle(&mut self, at: Point, radius: f64, attributes: &str) {
        let Point { x, y } = at;
        let place = format!("cx=\"{x:.1}\" cy=\"{y:.1}\" r=\"{radius}\" {attributes}");
        self.element("circle", &place);
    }

    /// A rectangle from its upper left corner.
    pub fn rect(&mut self, at: Point, width: f64, height: f64, attributes: &str) {
        let Point { x, y } = at;
        let size = format!("width=\"{width:.1}\" height=\"{height:.1}\"");
        self.element(
            "rect",
            &format!("x=\"{x:.1}\" y=\"{y:.1}\" {size} {attributes}"),
        );
    }

    /// Text with a white edge, so that it can be read over lines.
    pub fn text(&mut self, at: Point, font: Font, text: &str) {
        let Point { x, y } = at;
        let weight = if font.bold {
            " font-weight=\"bold\""
        } else {
            ""
        };
        let Font {
            size, anchor, fill, ..
        } = font;
        self.body.push_str(&format!(
            "<text x=\"{x:.1}\" y=\"{y:.1}\" font-size=\"{size}\" text-anchor=\"{anchor}\" fill=\"{fill}\"{weight}>{}</text>\n",
            escaped(text)
        ));
    }

    /// The whole picture.
    pub fn finish(self, width: f64, height: f64, title: &str) -> String {
        format!(
            "<svg xmlns=\"http://www.w3.org/2000/svg\" width=\"{width:.0}\" height=\"{height:.0}\" \
             viewBox=\"0 0 {width:.0} {height:.0}\" font-family=\"Helvetica, Arial, sans-serif\">\n\
             <title>{}</title>\n\
             <style>text {{ paint-order: stroke; stroke: #fff; stroke-width: 3px; stroke-linejoin: round; }}</style>\n\
             <rect width=\"100%\" height=\"100%\" fill=\"#fff\"/>\n{}</svg>\n",
            escaped(title),
            self.body
        )
    }
}
