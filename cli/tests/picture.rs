//! Diagrams of generated texts and recordings, read back from the SVG and looked at in the picture that rsvg draws of it: a row for every signal, every line
//! of the text and the whole, true where the second converter says that it holds; the loop at its place; each position under its number.

mod common;

use common::drawing::{self, Row, Strip};
use common::{labels, Folder};
use second::answer::Answer;
use second::generate::prng::Prng;
use second::generate::{recordings, sound_text};
use second::meaning::meaning;
use second::reader;
use second::recording::Lasso;
use second::syntax::{ExprId, SectionKind, Syntax};
use std::process::Command;

const PICTURES: usize = 60;
/// Of so many pictures one may have several strips.
const STRIPS_IN: usize = 6;

/// What a row is to say, and where it is true.
type Due = (String, Vec<bool>);

fn signal_rows(text: &[u8], signals: &[u32], lasso: &Lasso) -> Vec<Due> {
    let row = |number: usize| (0..lasso.positions()).map(|position| lasso.present(position, number)).collect();
    labels(text, signals)
        .into_iter()
        .enumerate()
        .map(|(number, label)| (label, row(number)))
        .collect()
}

/// A line's tokens, those that stand apart with one blank between.
fn source(syntax: &Syntax, line: ExprId) -> String {
    let expression = &syntax.exprs[line];
    let mut source = String::new();
    for token in expression.first..expression.end {
        if token > expression.first && syntax.tokens[token - 1].end < syntax.place(token) {
            source.push(' ');
        }
        source.push_str(&String::from_utf8_lossy(syntax.bytes(token)));
    }
    source
}

const SECTIONS: &str = "INITIALLY PRESET REQUIRE ASSERT INVARIANTS ASSUME ASSUMPTIONS GUARANTEE GUARANTEES";

/// The text with nothing in its sections but what holds where the line does not: whatever the buses imply, it is not owed after `false`.
fn unless(syntax: &Syntax, line: ExprId) -> Vec<u8> {
    let mut text = String::new();
    let (mut depth, mut skipped) = (0, None);
    for token in 0..syntax.tokens.len() {
        let word = String::from_utf8_lossy(syntax.bytes(token));
        if SECTIONS.split(' ').any(|section| section == word) {
            skipped = Some(depth);
        }
        depth += usize::from(word == "{");
        depth -= usize::from(word == "}");
        if token + 1 == syntax.tokens.len() {
            text.push_str(&format!("INITIALLY {{ {}; }} PRESET {{ false; }} ", source(syntax, line)));
        }
        if skipped.is_none() {
            text.push_str(&format!("{word} "));
        } else if word == "}" && skipped == Some(depth) {
            skipped = None;
        }
    }
    text.into_bytes()
}

/// The line that F-7 names, by its section, its number there and the position, of rows that the second converter's meaning gives.
fn blamed(syntax: &Syntax, lines: &[Due], strict: bool) -> Option<(&'static str, usize, usize)> {
    let mut rows: Vec<(&'static str, usize, &[bool])> = Vec::new();
    let mut lines = lines.iter();
    for section in &syntax.sections {
        for number in 1..=section.lines.len() {
            rows.push((section_name(section.kind), number, &lines.next().expect("a row of each line").1));
        }
    }
    let first = |name: &str, position: usize| {
        let found = rows.iter().find(|(section, _, row)| *section == name && !row[position]);
        found.map(|&(section, number, _)| (section, number, position))
    };
    let positions = rows.first().map_or(0, |row| row.2.len());
    let required = |position: usize| !strict || (0..=position).all(|position| first("REQUIRE", position).is_none());
    let asserted = || {
        (0..positions)
            .filter(|&position| required(position))
            .find_map(|position| first("ASSERT", position))
    };
    first("PRESET", 0).or_else(asserted).or_else(|| first("GUARANTEE", 0))
}

fn section_name(kind: SectionKind) -> &'static str {
    match kind {
        SectionKind::Initially => "INITIALLY",
        SectionKind::Preset => "PRESET",
        SectionKind::Require => "REQUIRE",
        SectionKind::Assert => "ASSERT",
        SectionKind::Assume => "ASSUME",
        SectionKind::Guarantee => "GUARANTEE",
    }
}

/// A run that fails has its line told and framed in the picture; one that buses break by what they imply has no line.
fn compare_blame(text: &[u8], told: &str, svg: &str, due: &[Due], signals: usize, lasso: &Lasso) -> bool {
    let (syntax, _) = reader::check_text(text).expect("an accepted text");
    let strict = String::from_utf8_lossy(text).contains("Strict");
    let blamed = blamed(&syntax, &due[signals..due.len() - 1], strict);
    let line = told.lines().nth(1).unwrap_or_default();
    let Some((section, number, position)) = blamed else {
        assert!(line.contains(", which no identifier of "), "{told}");
        return false;
    };
    if line.contains(", which no identifier of ") {
        return false;
    }
    assert_eq!(line, format!("  {section} line {number} is false at position {position}"), "{told}");
    let mut framed = 0;
    let strips = drawing::strips(svg);
    let cell = cell(&strips[0], lasso);
    for strip in &strips {
        for (left, right) in strip.rows.iter().flat_map(|row| &row.frames) {
            assert_eq!(right - left, cell);
            framed += 1;
        }
    }
    assert_eq!(framed, 1);
    true
}

fn due(text: &[u8], signals: &[u32], lasso: &Lasso) -> Vec<Due> {
    let mut rows = signal_rows(text, signals, lasso);
    let (syntax, _) = reader::check_text(text).expect("an accepted text");
    for &line in syntax.sections.iter().flat_map(|section| &section.lines) {
        let fails = meaning(&unless(&syntax, line), lasso).expect("an accepted line");
        rows.push((source(&syntax, line), fails.into_iter().map(|fails| !fails).collect()));
    }
    let whole = meaning(text, lasso).expect("an accepted text");
    let verdict = if whole[0] { "holds" } else { "fails" };
    rows.push((format!("{verdict} at position 0"), whole));
    rows
}

/// What rsvg draws, as brightness from 0 to 255.
struct Drawn {
    width: usize,
    brightness: Vec<u8>,
}

impl Drawn {
    fn of(folder: &Folder) -> Drawn {
        let command = "rsvg-convert run.svg -o run.png && pngtopnm run.png | ppmtopgm";
        let output = Command::new("sh")
            .current_dir(&folder.path)
            .args(["-c", command])
            .output()
            .expect("sh");
        assert!(output.status.success(), "{}", String::from_utf8_lossy(&output.stderr));
        let mut fields = output.stdout.splitn(4, |byte| byte.is_ascii_whitespace());
        assert_eq!(fields.next(), Some(&b"P5"[..]));
        let width = String::from_utf8_lossy(fields.next().expect("a width")).parse().expect("a width");
        let pixels = fields.nth(1).and_then(|rest| rest.strip_prefix(b"255\n")).expect("pixels");
        Drawn {
            width,
            brightness: pixels.to_vec(),
        }
    }

    fn at(&self, x: usize, y: usize) -> u8 {
        self.brightness[y * self.width + x]
    }

    /// In the middle of a cell: the line is high over a hatched block, or low under nothing.
    fn shows(&self, row: &Row, x: usize, bit: bool) -> bool {
        let ((high, low), black) = (row.levels, 60);
        let is_high = self.at(x, high) < black && self.at(x, low) > black;
        let is_low = self.at(x, low) < black && self.at(x, high) > black;
        let between = (x - 2..x + 2).flat_map(|x| (high + 3..low - 2).map(move |y| (x, y)));
        let darkest = between.map(|(x, y)| self.at(x, y)).min().unwrap_or(0);
        if bit {
            is_high && darkest < 160
        } else {
            is_low && darkest > 240
        }
    }
}

fn compare(svg: &str, drawn: &Drawn, due: &[Due], lasso: &Lasso) -> usize {
    let strips = drawing::strips(svg);
    let cell = cell(&strips[0], lasso);
    let mut start = 0;
    for strip in &strips {
        let (left, right) = (strip.rows[0].left(), strip.rows[0].right());
        let end = start + (right - left) / cell;
        assert_eq!(strip.rows.len(), due.len());
        for (row, (label, bits)) in strip.rows.iter().zip(due) {
            assert_eq!((&row.title, row.left()), (label, left));
            assert_eq!(row.bits(cell), bits[start..end], "{label}");
            for (number, &bit) in bits[start..end].iter().enumerate() {
                let x = left + number * cell + cell / 2;
                assert!(drawn.shows(row, x, bit), "{label} at {} is not {bit}", start + number);
            }
            let label = label.replace(' ', "");
            let cut = row.label.strip_suffix("...").is_some_and(|written| label.starts_with(written));
            assert!(row.label == label || cut, "{}", row.label);
        }
        let x = |position: usize| left + (position - start) * cell;
        assert!(strip.numbers.len() * 50 >= end - start);
        for &(number, middle) in &strip.numbers {
            assert!(
                (start..end).contains(&number) && middle == x(number) + cell / 2,
                "{number} at {middle}"
            );
        }
        compare_loop(strip, start..end, x, lasso);
        start = end;
    }
    assert_eq!(start, lasso.positions());
    strips.len()
}

/// The width of a position.
fn cell(strip: &Strip, lasso: &Lasso) -> usize {
    let mut numbers = strip.numbers.clone();
    // High pictures have them below the rows too.
    numbers.dedup();
    match numbers[..] {
        [(one, left), (two, right), ..] if two > one => (right - left) / (two - one),
        _ => (strip.rows[0].right() - strip.rows[0].left()) / lasso.positions(),
    }
}

/// An arrow from the end of the last position to the beginning of the loop's first, under every strip between; both places dashed.
fn compare_loop(strip: &Strip, positions: std::ops::Range<usize>, x: impl Fn(usize) -> usize, lasso: &Lasso) {
    let is_last = positions.end == lasso.positions();
    let is_first = positions.contains(&lasso.loop_start);
    let (mut edges, mut backs, mut notes) = (Vec::new(), Vec::new(), Vec::new());
    if is_first {
        edges.push(x(lasso.loop_start));
    }
    if is_last {
        edges.push(x(positions.end));
    }
    if lasso.loop_start < positions.end {
        backs.push((x(positions.end), x(lasso.loop_start.max(positions.start)), is_first));
    }
    if is_first || is_last {
        notes.push(format!("loop: after {} comes {}", lasso.positions() - 1, lasso.loop_start));
    }
    assert_eq!((&strip.edges, &strip.backs, &strip.notes), (&edges, &backs, &notes));
}

#[test]
fn diagrams_show_what_holds() {
    let folder = Folder::new();
    let mut rng = Prng::new(11);
    let (mut drawn, mut lines, mut several, mut blamed) = (0, 0, 0, 0);
    while drawn < PICTURES {
        let text = sound_text(&mut rng);
        let reading = reader::read_freely(&text);
        let Answer::Accepted { nodes, signals } = reading.answer else {
            continue;
        };
        if nodes > 2_000 || signals > 60 {
            continue;
        }
        let most = if drawn % STRIPS_IN == 0 { 700 } else { 40 };
        let lasso = recordings::lasso(&mut rng, most, signals);
        let due = due(&text, &reading.signals, &lasso);
        folder.file("t.tlsf", &text);
        folder.file("run", lasso.bytes(signals));
        let ran = folder.run(&["judge", "t.tlsf", "run", "--svg", "run.svg"]);
        assert!(ran.status < 2, "{}", ran.told);
        let svg = String::from_utf8(folder.read("run.svg")).expect("UTF-8");
        several += usize::from(compare(&svg, &Drawn::of(&folder), &due, &lasso) > 1);
        if ran.status == 1 {
            blamed += usize::from(compare_blame(&text, &ran.text(), &svg, &due, signals, &lasso));
        }
        drawn += 1;
        lines += due.len() - signals - 1;
    }
    println!("{drawn} diagrams, {several} in several strips, are drawn as they should, with {lines} lines of the texts; {blamed} name the broken line");
    assert!(lines > PICTURES && several > 4 && blamed > 4);
}
