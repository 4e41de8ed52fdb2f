//! A timing diagram read back from its SVG, which has an element on each line.

use std::str::FromStr;

/// A part of the positions with all rows, as it is drawn.
#[derive(Default)]
pub struct Strip {
    /// Numbers of positions, and where the middle of each stands.
    pub numbers: Vec<(usize, usize)>,
    pub rows: Vec<Row>,
    /// Where dashed lines stand.
    pub edges: Vec<usize>,
    /// Lines back, from right to left, and whether an arrow's head stands at the left.
    pub backs: Vec<(usize, usize, bool)>,
    pub notes: Vec<String>,
    /// Rows of values: the title, and the values that are written.
    pub values: Vec<(String, Vec<String>)>,
}

#[derive(Default)]
pub struct Row {
    pub title: String,
    /// What is written at the left, without blanks.
    pub label: String,
    /// From left to right, how far each level reaches, and whether it is the high one.
    pub runs: Vec<(usize, usize, bool)>,
    /// The high and the low level.
    pub levels: (usize, usize),
    pub blocks: Vec<(usize, usize)>,
    /// Where frames stand around a position: its left and right edge.
    pub frames: Vec<(usize, usize)>,
}

const LEVELS_APART: usize = 14;

impl Row {
    pub fn left(&self) -> usize {
        self.runs.first().map_or(0, |run| run.0)
    }

    pub fn right(&self) -> usize {
        self.runs.last().map_or(0, |run| run.1)
    }

    /// Where it is drawn as true, the line and the blocks saying the same.
    pub fn bits(&self, cell: usize) -> Vec<bool> {
        let high: Vec<(usize, usize)> = self.runs.iter().filter(|run| run.2).map(|run| (run.0, run.1)).collect();
        assert_eq!(self.blocks, high, "{}: blocks stand under the high line", self.title);
        let mut reached = self.left();
        let mut bits = Vec::new();
        for &(left, right, bit) in &self.runs {
            assert!(left == reached && left < right && (right - left) % cell == 0, "{}", self.title);
            bits.resize(bits.len() + (right - left) / cell, bit);
            reached = right;
        }
        bits
    }
}

fn attribute<'a>(element: &'a str, name: &str) -> Option<&'a str> {
    let (_, rest) = element.split_once(&format!(" {name}=\""))?;
    rest.split('"').next()
}

fn number<T: FromStr>(text: &str) -> T {
    text.parse().unwrap_or_else(|_| panic!("a number in place of {text:?}"))
}

fn numbers(text: &str) -> Vec<usize> {
    text.split(|c: char| !c.is_ascii_digit())
        .filter(|part| !part.is_empty())
        .map(number)
        .collect()
}

fn content(element: &str) -> String {
    let inner = element.trim_start_matches("<g>").split_once('>').map_or("", |(_, rest)| rest);
    let text = inner.rsplit_once("</").map_or("", |(text, _)| text);
    let plain = text.replace("&lt;", "<").replace("&gt;", ">").replace("&quot;", "\"");
    plain.replace("&amp;", "&")
}

pub fn strips(svg: &str) -> Vec<Strip> {
    let mut strips: Vec<Strip> = Vec::new();
    let mut in_row = false;
    let mut in_values = false;
    for element in svg.lines() {
        if let (true, Some(strip)) = (in_values || element.starts_with("<g class=\"values\">"), strips.last_mut()) {
            in_values = element != "</g>";
            read_values(strip, element);
            continue;
        }
        let is_number = element.starts_with("<text") && attribute(element, "text-anchor") == Some("middle");
        if is_number && strips.last().map_or(true, |strip| !strip.rows.is_empty()) {
            strips.push(Strip::default());
        }
        let Some(strip) = strips.last_mut() else {
            continue;
        };
        if is_number {
            let x = attribute(element, "x").map_or(0, number);
            strip.numbers.push((number(&content(element)), x));
        } else if element.starts_with("<g>") {
            in_row = true;
            let title = content(element);
            strip.rows.push(Row { title, ..Row::default() });
        } else if element == "</g>" {
            in_row = false;
        } else if in_row {
            read_into(strip.rows.last_mut().expect("a row"), element);
        } else if element.starts_with("<text") && attribute(element, "font-weight").is_none() {
            strip.notes.push(content(element));
        } else if let (Some(line), true) = (attribute(element, "d"), element.contains("stroke-width=\"1.5\"")) {
            read_mark(strip, element, line);
        }
    }
    strips
}

fn read_values(strip: &mut Strip, element: &str) {
    let inner = element.trim_start_matches("<g class=\"values\">");
    if inner.starts_with("<title") {
        strip.values.push((content(inner), Vec::new()));
    } else if attribute(element, "text-anchor") == Some("middle") {
        strip.values.last_mut().expect("a row of values").1.push(content(element));
    }
}

fn read_into(row: &mut Row, element: &str) {
    let of = |name| attribute(element, name).map_or(0, number::<usize>);
    if element.starts_with("<text") {
        if row.label.is_empty() {
            // A label stands on the low level.
            let low = of("y") + 2;
            row.levels = (low - LEVELS_APART, low);
        }
        row.label.extend(content(element).split(' '));
    } else if element.starts_with("<rect") {
        assert_eq!((of("y"), of("height")), (row.levels.0, LEVELS_APART));
        assert_eq!(attribute(element, "fill"), Some("url(#true)"));
        row.blocks.push((of("x"), of("x") + of("width")));
    } else if attribute(element, "stroke-width") == Some("3") {
        let frame = numbers(attribute(element, "d").unwrap_or_default());
        row.frames.push((frame[0], frame[0] + frame[2]));
    } else if attribute(element, "stroke-width") == Some("2") {
        for run in attribute(element, "d").unwrap_or_default().split(['M', 'L']).skip(1) {
            let [left, level, right] = numbers(run)[..] else {
                panic!("no run: {run}");
            };
            assert!(level == row.levels.0 || level == row.levels.1, "{element}");
            row.runs.push((left, right, level == row.levels.0));
        }
    }
}

fn read_mark(strip: &mut Strip, element: &str, line: &str) {
    match numbers(line)[..] {
        [x, _, _] if line.contains('V') => {
            assert!(element.contains("stroke-dasharray"));
            strip.edges.push(x);
        }
        [right, _, left] => strip.backs.push((right, left, element.contains("marker-end=\"url(#arrow)\""))),
        _ => panic!("no mark: {element}"),
    }
}
