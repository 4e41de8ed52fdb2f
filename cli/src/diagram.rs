//! A timing diagram as SVG. True is a hatched block under a high line, false a low line: no colour is needed to tell them apart.
//!
//! Many positions are drawn in strips, one under the other, each with all rows and their labels.

use crate::layout::{Layout, Strip, BLOCK_HEIGHT, CHARACTER_WIDTH, HEAD_HEIGHT, INDENT, LINE_HEIGHT, MARGIN, NUMBERS_HEIGHT};
use crate::svg::Picture;
use std::fmt::Write;
use std::ops::Range;

/// A row of the diagram.
pub struct Row {
    /// Rows of one group stand under its name.
    pub group: String,
    pub label: String,
    pub trace: Trace,
}

/// What a row shows at each position.
pub enum Trace {
    Bits(Vec<bool>),
    Values(Vec<String>),
}

/// A row that is false where it should not be.
pub struct Mark {
    pub row: usize,
    pub position: usize,
    /// Where the part of it is false that makes it so.
    pub blamed: Option<usize>,
}

pub struct Diagram {
    pub title: String,
    /// What is to say about the verdict, in one line.
    pub note: String,
    pub rows: Vec<Row>,
    pub marks: Vec<Mark>,
    pub positions: usize,
    /// The positions that are drawn.
    pub shown: Range<usize>,
    pub loop_start: usize,
}

const BOLD: &str = " font-weight=\"bold\"";
const SMALL: &str = " font-size=\"11\"";
const SMALL_CENTRED: &str = " font-size=\"11\" text-anchor=\"middle\"";
const TRACE: &str = " fill=\"none\" stroke=\"black\" stroke-width=\"2\"";
const BOX: &str = " fill=\"none\" stroke=\"black\"";
const FRAME: &str = " fill=\"none\" stroke=\"black\" stroke-width=\"3\"";
const RULE: &str = " stroke=\"#ccc\"";
/// Where the note begins.
pub const LEGEND_WIDTH: usize = 230;
/// Of a character of a value, in tenths of a pixel.
const SMALL_WIDTH: usize = 66;
const SHORTEST_LEADER: usize = 24;
const LEADER: &str = " stroke=\"#aaa\" stroke-dasharray=\"1 5\"";
const LOOP_EDGE: &str = " stroke=\"black\" stroke-width=\"1.5\" stroke-dasharray=\"5 3\"";
const LOOP_BACK: &str = " stroke=\"black\" stroke-width=\"1.5\"";
const LOOP_ARROW: &str = " stroke=\"black\" stroke-width=\"1.5\" marker-end=\"url(#arrow)\"";

impl Diagram {
    pub fn svg(&self) -> String {
        let layout = Layout::of(self);
        let mut picture = Picture::new(layout.width(), layout.height(), &self.title);
        picture.text(MARGIN, 24, " font-size=\"15\" font-weight=\"bold\"", &self.title);
        draw_legend(&mut picture, &self.note);
        for strip in layout.strips() {
            draw_positions(&mut picture, &layout, &strip);
            self.draw_rows(&mut picture, &layout, &strip);
            self.draw_loop(&mut picture, &layout, &strip);
            self.draw_pointers(&mut picture, &layout, &strip);
        }
        picture.finished()
    }

    pub fn begins_group(&self, number: usize) -> bool {
        number == 0 || self.rows[number - 1].group != self.rows[number].group
    }

    fn draw_rows(&self, picture: &mut Picture, layout: &Layout, strip: &Strip) {
        for (number, row) in self.rows.iter().enumerate() {
            let top = strip.top + layout.row_tops[number];
            if self.begins_group(number) {
                picture.text(MARGIN, top - 6, BOLD, &row.group);
            }
            let marks: Vec<usize> = self
                .marks
                .iter()
                .filter(|mark| mark.row == number)
                .map(|mark| mark.position)
                .collect();
            picture.begin_group(&row.label, matches!(row.trace, Trace::Values(_)));
            draw_label(
                picture,
                layout,
                &layout.labels[number],
                top,
                if marks.is_empty() { "" } else { BOLD },
            );
            match &row.trace {
                Trace::Bits(bits) => draw_trace(picture, layout, strip, bits, top),
                Trace::Values(values) => draw_values(picture, layout, strip, values, top),
            }
            for position in marks.into_iter().filter(|&position| strip.has(position)) {
                let (left, width) = (strip.x(layout, position), layout.cell);
                picture.path(format_args!("M{left} {}h{width}v22h-{width}z", top + 1), FRAME);
            }
            picture.end_group();
        }
    }

    /// A pointer above each position that is to blame.
    fn draw_pointers(&self, picture: &mut Picture, layout: &Layout, strip: &Strip) {
        let at = self.marks.iter().flat_map(|mark| [Some(mark.position), mark.blamed]).flatten();
        for position in at.filter(|&position| strip.has(position)) {
            let (x, y) = (strip.x(layout, position) + layout.cell / 2, strip.top + NUMBERS_HEIGHT);
            picture.path(format_args!("M{x} {y}l-4 -7h8z"), " fill=\"black\"");
        }
    }

    /// From the last position back to the loop's start: a line under every strip that has a part of the loop.
    fn draw_loop(&self, picture: &mut Picture, layout: &Layout, strip: &Strip) {
        let (is_first, is_last) = (strip.has(self.loop_start), strip.end == self.positions);
        if self.loop_start >= strip.end {
            return;
        }
        let (left, right) = (strip.x(layout, self.loop_start.max(strip.start)), strip.x(layout, strip.end));
        let top = strip.top + NUMBERS_HEIGHT - 6;
        let back = strip.top + layout.loop_top();
        for (x, is_edge) in [(left, is_first), (right, is_last)] {
            if is_edge {
                picture.path(format_args!("M{x} {top}V{back}"), LOOP_EDGE);
            }
        }
        let line = if is_first { LOOP_ARROW } else { LOOP_BACK };
        picture.path(format_args!("M{right} {back}H{left}"), line);
        if is_first || is_last {
            let note = format!("loop: after {} comes {}", self.positions.saturating_sub(1), self.loop_start);
            let fits = left + note.len() * CHARACTER_WIDTH <= layout.width() - MARGIN;
            let (x, anchor) = if fits { (left, "") } else { (right, " text-anchor=\"end\"") };
            picture.text(x, back + 18, anchor, &note);
        }
    }
}

fn draw_legend(picture: &mut Picture, note: &str) {
    let (left, high) = (INDENT, HEAD_HEIGHT - 24);
    let low = high + BLOCK_HEIGHT;
    let (step, end) = (left + 24, left + 88);
    picture.block(left, high, 24, BLOCK_HEIGHT);
    picture.path(format_args!("M{left} {high}H{step}M{end} {low}h24"), TRACE);
    picture.text(step + 6, low, SMALL, "true");
    picture.text(end + 30, low, SMALL, "false");
    if !note.is_empty() {
        picture.path(format_args!("M{} {}h14v22h-14z", end + 88, high - 4), FRAME);
        picture.text(LEGEND_WIDTH, low, SMALL, note);
    }
}

fn draw_positions(picture: &mut Picture, layout: &Layout, strip: &Strip) {
    let (top, bottom) = (strip.top + NUMBERS_HEIGHT - 6, strip.top + layout.rows_height());
    for position in (strip.start..strip.end).filter(|position| position % layout.number_step == 0) {
        let x = strip.x(layout, position);
        picture.path(format_args!("M{x} {top}V{bottom}"), RULE);
        picture.text(x + layout.cell / 2, top - 4, SMALL_CENTRED, &position.to_string());
        if layout.has_foot_numbers() {
            picture.text(x + layout.cell / 2, bottom + 12, SMALL_CENTRED, &position.to_string());
        }
    }
}

fn draw_label(picture: &mut Picture, layout: &Layout, label: &[String], top: usize, weight: &str) {
    let first = top + 5 + BLOCK_HEIGHT;
    for (number, line) in label.iter().enumerate() {
        picture.text(INDENT, first - 2 + number * LINE_HEIGHT, weight, line);
    }
    let length = label.first().map_or(0, |line| line.chars().count());
    let (from, to) = (INDENT + (length + 1) * CHARACTER_WIDTH, layout.left - 8);
    if from + SHORTEST_LEADER < to {
        picture.path(format_args!("M{from} {}H{to}", first - 3), LEADER);
    }
}

fn draw_trace(picture: &mut Picture, layout: &Layout, strip: &Strip, bits: &[bool], top: usize) {
    let (high, low) = (top + 5, top + 5 + BLOCK_HEIGHT);
    let mut line = String::new();
    let mut from = strip.start;
    while let Some(&bit) = bits.get(from).filter(|_| from < strip.end) {
        let run = bits[from..strip.end.min(bits.len())]
            .iter()
            .take_while(|&&other| other == bit)
            .count();
        let (left, right) = (strip.x(layout, from), strip.x(layout, from + run));
        if bit {
            picture.block(left, high, right - left, BLOCK_HEIGHT);
        }
        let level = if bit { high } else { low };
        let _ = write!(line, "{}{left} {level}H{right}", if line.is_empty() { "M" } else { "L" });
        from += run;
    }
    picture.path(line, TRACE);
}

/// A box for every run of equal values, with the value in it where it fits.
fn draw_values(picture: &mut Picture, layout: &Layout, strip: &Strip, values: &[String], top: usize) {
    let high = top + 5;
    let mut from = strip.start;
    while let Some(value) = values.get(from).filter(|_| from < strip.end) {
        let run = values[from..strip.end.min(values.len())]
            .iter()
            .take_while(|other| *other == value)
            .count();
        let (left, right) = (strip.x(layout, from), strip.x(layout, from + run));
        picture.path(format_args!("M{left} {high}H{right}v{BLOCK_HEIGHT}H{left}z"), BOX);
        if value.chars().count() * SMALL_WIDTH + 20 <= (right - left) * 10 {
            picture.text((left + right) / 2, high + BLOCK_HEIGHT - 3, SMALL_CENTRED, value);
        }
        from += run;
    }
}
