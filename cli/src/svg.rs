//! Elements of an SVG picture, each on a line.

use std::fmt::{Display, Write};

pub struct Picture {
    elements: String,
}

impl Picture {
    /// A white page with what the other elements refer to: the pattern `true` and the arrow's head.
    pub fn new(width: usize, height: usize, title: &str) -> Picture {
        let title = escaped(title);
        let elements = format!(
            "<svg xmlns=\"http://www.w3.org/2000/svg\" role=\"img\" width=\"{width}\" height=\"{height}\" viewBox=\"0 0 {width} {height}\" \
             font-family=\"monospace\" font-size=\"13\">\n\
             <title>{title}</title>\n\
             <defs><pattern id=\"true\" width=\"6\" height=\"6\" patternUnits=\"userSpaceOnUse\">\
             <rect width=\"6\" height=\"6\" fill=\"#d8d8d8\"/><path d=\"M0 6L6 0\" stroke=\"#555\" stroke-width=\"1\"/></pattern>\
             <marker id=\"arrow\" viewBox=\"0 0 10 10\" refX=\"9\" refY=\"5\" markerWidth=\"8\" markerHeight=\"8\" orient=\"auto\">\
             <path d=\"M0 0L10 5L0 10Z\"/></marker></defs>\n\
             <rect width=\"{width}\" height=\"{height}\" fill=\"white\"/>\n"
        );
        Picture { elements }
    }

    pub fn text(&mut self, x: usize, y: usize, attributes: &str, text: &str) {
        self.element(format_args!("<text x=\"{x}\" y=\"{y}\"{attributes}>{}</text>", escaped(text)));
    }

    pub fn path(&mut self, line: impl Display, attributes: &str) {
        self.element(format_args!("<path d=\"{line}\"{attributes}/>"));
    }

    /// A block of what is true.
    pub fn block(&mut self, x: usize, y: usize, width: usize, height: usize) {
        self.element(format_args!(
            "<rect x=\"{x}\" y=\"{y}\" width=\"{width}\" height=\"{height}\" fill=\"url(#true)\"/>"
        ));
    }

    /// Elements up to the group's end belong together; a browser tells the title where the mouse rests on one.
    pub fn begin_group(&mut self, title: &str, of_values: bool) {
        let class = if of_values { " class=\"values\"" } else { "" };
        self.element(format_args!("<g{class}><title>{}</title>", escaped(title)));
    }

    pub fn end_group(&mut self) {
        self.element(format_args!("</g>"));
    }

    pub fn finished(mut self) -> String {
        self.element(format_args!("</svg>"));
        self.elements
    }

    fn element(&mut self, element: impl Display) {
        let _ = writeln!(self.elements, "{element}");
    }
}

fn escaped(text: &str) -> String {
    let mut escaped = String::new();
    for c in text.chars() {
        match c {
            '&' => escaped.push_str("&amp;"),
            '<' => escaped.push_str("&lt;"),
            '>' => escaped.push_str("&gt;"),
            '"' => escaped.push_str("&quot;"),
            c if c.is_control() || matches!(c, '\u{fffe}' | '\u{ffff}') => escaped.push('\u{fffd}'),
            c => escaped.push(c),
        }
    }
    escaped
}
