//! Where the parts of a timing diagram stand, in pixels.

use crate::diagram::{Diagram, LEGEND_WIDTH};
use std::ops::Range;

pub const MARGIN: usize = 16;
pub const INDENT: usize = MARGIN + 12;
pub const HEAD_HEIGHT: usize = 60;
pub const NUMBERS_HEIGHT: usize = 28;
pub const BLOCK_HEIGHT: usize = 14;
pub const LINE_HEIGHT: usize = 16;
pub const CHARACTER_WIDTH: usize = 8;
const ROW_HEIGHT: usize = 26;
const GROUP_HEIGHT: usize = 24;
const LOOP_HEIGHT: usize = 44;
/// Where the rows are higher than a screen, the positions have their numbers below them too.
const SCREEN_HEIGHT: usize = 800;
const FOOT_HEIGHT: usize = 16;

/// A label's lines are broken here unless a name needs more, and a signal's name with its index never does.
const LABEL_CHARACTERS: (usize, usize) = (48, 72);
const LABEL_LINES: usize = 8;

/// The positions of a strip share this width, within the bounds of a cell's width.
const STRIP_WIDTH: usize = 960;
const CELL_WIDTHS: (usize, usize) = (8, 36);
/// More positions than this are drawn in strips.
const MOST_IN_A_STRIP: usize = 120;
const POSITIONS_IN_A_STRIP: usize = 100;
/// Programs that draw SVG stop at 32,767 pixels.
const MOST_HEIGHT: usize = 32_000;

pub struct Layout {
    /// The lines of each row's label.
    pub labels: Vec<Vec<String>>,
    /// The top of each row below the top of its strip.
    pub row_tops: Vec<usize>,
    /// Where the positions begin.
    pub left: usize,
    pub cell: usize,
    /// Every position whose number is a multiple has it written above.
    pub number_step: usize,
    rows_height: usize,
    shown: Range<usize>,
    in_a_strip: usize,
    title_width: usize,
}

/// Positions from `start` up to `end`, drawn below `top`.
pub struct Strip {
    pub start: usize,
    pub end: usize,
    pub top: usize,
}

impl Strip {
    pub fn has(&self, position: usize) -> bool {
        (self.start..self.end).contains(&position)
    }

    pub fn x(&self, layout: &Layout, position: usize) -> usize {
        layout.left + (position - self.start) * layout.cell
    }
}

impl Layout {
    pub fn of(diagram: &Diagram) -> Layout {
        let words = diagram.rows.iter().flat_map(|row| row.label.split(' '));
        let longest = words.map(|word| word.chars().count()).max().unwrap_or(0);
        let width = longest.clamp(LABEL_CHARACTERS.0, LABEL_CHARACTERS.1);
        let labels: Vec<Vec<String>> = diagram.rows.iter().map(|row| broken(&row.label, width)).collect();
        let widest = labels.iter().flatten().map(|line| line.chars().count()).max().unwrap_or(0);
        let mut layout = Layout {
            left: INDENT + (widest + 2).max(20) * CHARACTER_WIDTH,
            labels,
            row_tops: Vec::new(),
            cell: 0,
            number_step: 1,
            rows_height: NUMBERS_HEIGHT,
            in_a_strip: diagram.shown.len(),
            shown: diagram.shown.clone(),
            title_width: (diagram.title.chars().count() * 10 + 2 * MARGIN).max(LEGEND_WIDTH + diagram.note.chars().count() * 7 + MARGIN),
        };
        for number in 0..diagram.rows.len() {
            if diagram.begins_group(number) {
                layout.rows_height += GROUP_HEIGHT;
            }
            layout.row_tops.push(layout.rows_height);
            let more_lines = layout.labels[number].len().saturating_sub(1);
            layout.rows_height += ROW_HEIGHT + more_lines * LINE_HEIGHT;
        }
        layout.divide();
        layout
    }

    fn divide(&mut self) {
        let positions = self.shown.len();
        if positions > MOST_IN_A_STRIP {
            let room = ((MOST_HEIGHT - HEAD_HEIGHT) / self.strip_height()).max(1);
            let strips = positions.div_ceil(POSITIONS_IN_A_STRIP).min(room);
            self.in_a_strip = positions.div_ceil(strips).next_multiple_of(10);
        }
        self.cell = (STRIP_WIDTH / self.in_a_strip.max(1)).clamp(CELL_WIDTHS.0, CELL_WIDTHS.1);
        let needed = (self.shown.end.to_string().len() + 1) * 7;
        let steps = [1, 2, 5, 10, 20, 50];
        self.number_step = steps.into_iter().find(|step| step * self.cell >= needed).unwrap_or(50);
    }

    pub fn strips(&self) -> impl Iterator<Item = Strip> + '_ {
        let starts = self.shown.clone().step_by(self.in_a_strip.max(1));
        starts.enumerate().map(|(number, start)| Strip {
            start,
            end: (start + self.in_a_strip).min(self.shown.end),
            top: HEAD_HEIGHT + number * self.strip_height(),
        })
    }

    pub fn rows_height(&self) -> usize {
        self.rows_height
    }

    pub fn has_foot_numbers(&self) -> bool {
        self.rows_height > SCREEN_HEIGHT
    }

    /// Where the line back to the loop's start stands below the top of its strip.
    pub fn loop_top(&self) -> usize {
        self.strip_height() - LOOP_HEIGHT + 14
    }

    fn strip_height(&self) -> usize {
        let foot = if self.has_foot_numbers() { FOOT_HEIGHT } else { 0 };
        self.rows_height + foot + LOOP_HEIGHT
    }

    pub fn width(&self) -> usize {
        let positions = self.left + self.in_a_strip.min(self.shown.len()) * self.cell + MARGIN;
        positions.max(self.title_width)
    }

    pub fn height(&self) -> usize {
        HEAD_HEIGHT + self.strips().count() * self.strip_height()
    }
}

/// A label in lines of at most `width` characters, broken at blanks where it can be; what is too long for them ends in dots.
fn broken(label: &str, width: usize) -> Vec<String> {
    let characters: Vec<char> = label.chars().collect();
    let mut lines = Vec::new();
    let mut rest = &characters[..];
    while rest.len() > width && lines.len() + 1 < LABEL_LINES {
        let blank = rest[..=width].iter().rposition(|&c| c == ' ').filter(|&at| at > 0);
        let end = blank.unwrap_or(width);
        lines.push(rest[..end].iter().collect());
        rest = &rest[end + usize::from(blank.is_some())..];
    }
    if rest.len() > width {
        let start: String = rest[..width - 3].iter().collect();
        lines.push(format!("{start}..."));
    } else {
        lines.push(rest.iter().collect());
    }
    lines
}

#[cfg(test)]
mod tests {
    use super::*;
    use crate::diagram::{Row, Trace};

    fn diagram(label: &str, rows: usize, positions: usize) -> Diagram {
        let row = |number: usize| Row {
            group: (number / 8).to_string(),
            label: label.to_string(),
            trace: Trace::Bits(vec![true; positions]),
        };
        Diagram {
            title: "t".to_string(),
            note: String::new(),
            rows: (0..rows).map(row).collect(),
            marks: Vec::new(),
            positions,
            shown: 0..positions,
            loop_start: 0,
        }
    }

    #[test]
    fn labels_are_broken_and_names_never_cut() {
        assert_eq!(broken("a && b", 4), ["a &&", "b"]);
        assert_eq!(broken("abcdef", 4), ["abcd", "ef"]);
        let lines = broken("a b c d e f g h i j k l m n o p q r", 4);
        assert_eq!(lines, ["a b", "c d", "e f", "g h", "i j", "k l", "m n", "o..."]);
        let name = format!("{}[254]", "n".repeat(64));
        assert_eq!(Layout::of(&diagram(&name, 1, 1)).labels, [[name]]);
    }

    #[test]
    fn strips_hold_every_position_once() {
        for (rows, positions) in [(1, 1), (5, 120), (5, 121), (20, 2048), (255, 2048), (600, 2048), (2000, 2048)] {
            let layout = Layout::of(&diagram("a", rows, positions));
            let mut next = 0;
            for strip in layout.strips() {
                assert!(strip.start == next && strip.end > next && strip.end - strip.start <= layout.in_a_strip);
                assert!(strip.x(&layout, strip.end) < layout.width());
                next = strip.end;
            }
            assert_eq!(next, positions);
            assert!(layout.height() <= MOST_HEIGHT || layout.strips().count() == 1);
        }
    }
}
