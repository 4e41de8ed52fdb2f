//! The lines of a text at some places, as they can be shown: for codespan-reporting a file of those lines alone.

use codespan_reporting::files::{Error, Files};
use std::ops::Range;

/// Characters shown before and after the places of a line; longer lines are cut.
const BEFORE: usize = 60;
const AFTER: usize = 60;

const BYTE_ORDER_MARK: &[u8] = "\u{feff}".as_bytes();

/// A line as it is shown.
struct Shown {
    /// From 1.
    number: usize,
    /// Where it stands in the source, with its line feed.
    source: Range<usize>,
}

pub struct Excerpt {
    pub file: String,
    /// Of the first place: its line and column from 1, the column in characters.
    pub line: usize,
    pub column: usize,
    /// What stands at the first place, if the line does not show it.
    pub unseen: Option<String>,
    source: String,
    lines: Vec<Shown>,
    /// Where the places are in the source.
    marks: Vec<Range<usize>>,
}

/// A line of the text: its number, and its bytes without the line's end.
struct Line {
    number: usize,
    bytes: Range<usize>,
}

impl Line {
    fn at(text: &[u8], place: usize) -> Line {
        let first = if text[..place].starts_with(BYTE_ORDER_MARK) {
            BYTE_ORDER_MARK.len()
        } else {
            0
        };
        let start = text[..place].iter().rposition(|&byte| byte == b'\n').map_or(first, |at| at + 1);
        let mut end = text[place..]
            .iter()
            .position(|&byte| byte == b'\n')
            .map_or(text.len(), |at| place + at);
        while end > place && text[end - 1] == b'\r' {
            end -= 1;
        }
        Line {
            number: text[..start].iter().filter(|&&byte| byte == b'\n').count() + 1,
            bytes: start..end,
        }
    }
}

impl Excerpt {
    /// The character at a place.
    pub fn new(file: String, text: &[u8], place: usize) -> Excerpt {
        Excerpt::of(file, text, std::slice::from_ref(&(place..place)))
    }

    /// The bytes of each place, the first of which is the one that matters most. A place without bytes is one character.
    pub fn of(file: String, text: &[u8], places: &[Range<usize>]) -> Excerpt {
        let places: Vec<Range<usize>> = places
            .iter()
            .map(|place| place.start.min(text.len())..place.end.min(text.len()))
            .collect();
        let first = places.first().cloned().unwrap_or(0..0);
        let first_line = Line::at(text, first.start);
        let mut excerpt = Excerpt {
            file,
            line: first_line.number,
            column: readable(&text[first_line.bytes.start..first.start]).len() + 1,
            unseen: unseen(&text[first.start..]),
            source: String::new(),
            lines: Vec::new(),
            marks: vec![0..0; places.len()],
        };
        let mut numbered: Vec<(Line, usize)> = places
            .iter()
            .enumerate()
            .map(|(number, place)| (Line::at(text, place.start), number))
            .collect();
        numbered.sort_by_key(|(line, number)| (line.number, places[*number].start));
        for same_line in numbered.chunk_by(|one, other| one.0.number == other.0.number) {
            let numbers: Vec<usize> = same_line.iter().map(|(_, number)| *number).collect();
            excerpt.add(text, &same_line[0].0, &places, &numbers);
        }
        excerpt
    }

    /// Adds a line with the places that stand in it.
    fn add(&mut self, text: &[u8], line: &Line, places: &[Range<usize>], numbers: &[usize]) {
        let start = self.source.len();
        let first = numbers.iter().map(|&number| places[number].start).min().unwrap_or(line.bytes.start);
        let before = readable(&text[line.bytes.start..first]);
        if before.len() > BEFORE {
            self.source.push_str("...");
        }
        self.source.extend(&before[before.len().saturating_sub(BEFORE)..]);
        let end = self.add_places(text, first, line.bytes.end, places, numbers);
        let after = readable(&text[end.min(line.bytes.end)..line.bytes.end]);
        self.source.extend(after.iter().take(AFTER));
        for &number in numbers {
            let mark = &mut self.marks[number];
            // One character at least, if the line has it.
            if mark.start == mark.end {
                mark.end += self.source[mark.start..].chars().next().map_or(0, char::len_utf8);
            }
        }
        self.source.push_str(if after.len() > AFTER { "...\n" } else { "\n" });
        self.lines.push(Shown {
            number: line.number,
            source: start..self.source.len(),
        });
    }

    /// Adds what is marked and what stands between, and tells where that ends in the text.
    fn add_places(&mut self, text: &[u8], first: usize, line_end: usize, places: &[Range<usize>], numbers: &[usize]) -> usize {
        let mut at = first;
        let mut ordered = numbers.to_vec();
        ordered.sort_by_key(|&number| places[number].start);
        for number in ordered {
            let start = places[number].start.max(at);
            self.source.extend(readable(&text[at..start]));
            at = places[number].end.clamp(start, line_end.max(start));
            let begin = self.source.len();
            self.source.extend(readable(&text[start..at]));
            self.marks[number] = begin..self.source.len();
        }
        at
    }

    /// Where a place is in what is shown, by its number.
    pub fn mark(&self, number: usize) -> Range<usize> {
        self.marks.get(number).cloned().unwrap_or(0..0)
    }

    fn shown(&self, index: usize) -> Result<&Shown, Error> {
        self.lines.get(index).ok_or(Error::LineTooLarge {
            given: index,
            max: self.lines.len(),
        })
    }
}

fn readable(bytes: &[u8]) -> Vec<char> {
    String::from_utf8_lossy(bytes).chars().map(harmless).collect()
}

fn unseen(rest: &[u8]) -> Option<String> {
    let Some(byte) = rest.first() else {
        return Some("the text ends here".to_string());
    };
    if rest.starts_with(BYTE_ORDER_MARK) {
        return Some("a byte order mark".to_string());
    }
    let shown = rest
        .utf8_chunks()
        .next()
        .is_some_and(|chunk| chunk.valid().chars().next().is_some_and(|c| harmless(c) == c));
    (!shown).then(|| format!("0x{byte:02x}"))
}

// Nothing that a terminal would act on, and nothing that would stand elsewhere than it is, or not at all.
fn harmless(c: char) -> char {
    match c {
        '\t' | '\r' => ' ',
        '\u{200b}'..='\u{200f}' | '\u{202a}'..='\u{202e}' | '\u{2060}'..='\u{206f}' | '\u{feff}' => '\u{fffd}',
        c if c.is_control() => '\u{fffd}',
        c => c,
    }
}

impl<'a> Files<'a> for Excerpt {
    type FileId = ();
    type Name = &'a str;
    type Source = &'a str;

    fn name(&'a self, (): ()) -> Result<&'a str, Error> {
        Ok(&self.file)
    }

    fn source(&'a self, (): ()) -> Result<&'a str, Error> {
        Ok(&self.source)
    }

    fn line_index(&'a self, (): (), byte: usize) -> Result<usize, Error> {
        let found = self.lines.iter().position(|line| line.source.contains(&byte));
        Ok(found.unwrap_or(self.lines.len().saturating_sub(1)))
    }

    fn line_number(&'a self, (): (), index: usize) -> Result<usize, Error> {
        Ok(self.shown(index)?.number)
    }

    fn column_number(&'a self, (): (), _: usize, _: usize) -> Result<usize, Error> {
        Ok(self.column)
    }

    fn line_range(&'a self, (): (), index: usize) -> Result<Range<usize>, Error> {
        Ok(self.shown(index)?.source.clone())
    }
}

#[cfg(test)]
mod tests {
    use super::*;

    #[test]
    fn any_bytes_at_any_places() {
        let text = b"a\xff\x1b[2J\r\n\tb \xc3\xa4 \xc3\n\n";
        for place in 0..text.len() + 3 {
            for other in 0..text.len() + 3 {
                let excerpt = Excerpt::of("f".to_string(), text, &[place..other, other..other + 2]);
                assert!(!excerpt.source.contains(['\x1b', '\r']));
                for mark in &excerpt.marks {
                    assert!(excerpt.source.is_char_boundary(mark.start) && excerpt.source.is_char_boundary(mark.end));
                }
            }
        }
    }

    // The line and the column of a place, what is shown of the line up to it and from it on, and what cannot be shown.
    fn told(text: &[u8], place: usize) -> (usize, usize, String, String, String) {
        let excerpt = Excerpt::new("f".to_string(), text, place);
        let (before, after) = excerpt.source.trim_end_matches('\n').split_at(excerpt.mark(0).start);
        let unseen = excerpt.unseen.clone().unwrap_or_default();
        (excerpt.line, excerpt.column, before.to_string(), after.to_string(), unseen)
    }

    #[test]
    fn columns_are_characters() {
        let due = |line, column, before: &str, after: &str, unseen: &str| (line, column, before.into(), after.into(), unseen.into());
        assert_eq!(told("\n\tä→x#y\r\nz".as_bytes(), 8), due(2, 5, " ä→x", "#y", ""));
        assert_eq!(told("a\rb#".as_bytes(), 3), due(1, 4, "a b", "#", ""));
        assert_eq!(told("→".as_bytes(), 0), due(1, 1, "", "→", ""));
        assert_eq!(told(b"a;", 2), due(1, 3, "a;", "", "the text ends here"));
        assert_eq!(told(b"a;\n", 3), due(2, 1, "", "", "the text ends here"));
        assert_eq!(told(b"", 0), due(1, 1, "", "", "the text ends here"));
        assert_eq!(told(b"a\x00", 1), due(1, 2, "a", "\u{fffd}", "0x00"));
        assert_eq!(told(b"a\xff", 1), due(1, 2, "a", "\u{fffd}", "0xff"));
        assert_eq!(told("\u{feff}a".as_bytes(), 0), due(1, 1, "", "\u{fffd}a", "a byte order mark"));
        assert_eq!(told("\u{feff}a".as_bytes(), 3), due(1, 1, "", "a", ""));
        assert_eq!(told("\u{202e}a".as_bytes(), 3), due(1, 2, "\u{fffd}", "a", ""));
    }

    #[test]
    fn long_lines_are_cut() {
        let text = vec![b'x'; 32_768];
        let excerpt = Excerpt::new("f".to_string(), &text, 20_000);
        assert_eq!((excerpt.line, excerpt.column, excerpt.source.len()), (1, 20_001, 127));
    }

    #[test]
    fn several_places_of_several_lines() {
        let text = b"one two\nthree\nfour five six\n";
        let excerpt = Excerpt::of("f".to_string(), text, &[19..23, 4..7, 14..18]);
        assert_eq!(excerpt.source, "one two\nfour five six\n");
        let marked: Vec<&str> = (0..3).map(|number| &excerpt.source[excerpt.mark(number)]).collect();
        assert_eq!(marked, ["five", "two", "four"]);
        assert_eq!((excerpt.line, excerpt.column, excerpt.lines[0].number), (3, 6, 1));
    }
}
