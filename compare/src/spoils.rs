//! The faults that a comparison has to see: of the answer, of results, of tails, guards and work buffer.

use crate::faults::{Fault, Left, Where};
use second::limits::WORK_BYTES;
use second::node::Node;

use Where::{BasicTexts, Diagnoses, Reaches, Recordings, Tables, Texts};

const fn fault(entry: Where, name: &'static str, spoil: unsafe fn(&mut Left)) -> Fault {
    Fault { name, entry, spoil }
}

/// Every fault that `compare/run` has to see.
pub static ALL: [Fault; 70] = [
    fault(Texts, "bit of a node", flip_node),
    fault(Texts, "bit of the signal list", flip_entry),
    fault(Texts, "node count", more_nodes),
    fault(Texts, "signal count", more_signals),
    fault(Texts, "number of a refusal", other_number),
    fault(Texts, "place of a refusal", other_place),
    fault(Texts, "a just fitting room refused", fitting),
    fault(Texts, "a short room accepted", short_room),
    fault(Texts, "node behind the last", node_tail),
    fault(Texts, "entry behind the last", entry_tail),
    fault(Texts, "node of a refused call", refused_node),
    fault(Texts, "cell before the nodes", before_nodes),
    fault(Texts, "cell after the nodes", after_nodes),
    fault(Texts, "cell before the signals", before_signals),
    fault(Texts, "cell after the signals", after_signals),
    fault(Texts, "byte before the work buffer", before_work),
    fault(Texts, "byte after the work buffer", after_work),
    fault(Texts, "first byte of the work buffer", first_work_byte),
    fault(
        Texts,
        "last cleared byte of the work buffer",
        last_work_byte,
    ),
    fault(Texts, "byte behind the cleared ones", beyond),
    fault(Texts, "short work buffer touched", short_work),
    fault(Texts, "byte of the text", input_byte),
    fault(Texts, "unlike models refused", unlike_refused),
    fault(Texts, "X above a signal moved above its !", next_above_not),
    fault(Tables, "bit of a rewritten node", flip_node),
    fault(Tables, "count of rewritten nodes", more_nodes),
    fault(Tables, "place of a refused table", other_place),
    fault(Tables, "node behind the rewritten", node_tail),
    fault(Tables, "byte of the table", input_byte),
    fault(Recordings, "bit of the rows", row_bit),
    fault(Recordings, "number of a refused recording", other_number),
    fault(Recordings, "byte after the rows", after_rows),
    fault(Recordings, "byte of the recording", input_byte),
    fault(Recordings, "23 given as 20", lacking_as_wrong),
    fault(Recordings, "18 given before 23", short_before_lacking),
    fault(Recordings, "spare bits behind a row", spare_bits),
    fault(Recordings, "odd bytes of the last row", odd_bytes),
    fault(Recordings, "byte before the rows", before_rows),
    fault(Reaches, "a reach one more", more_reach),
    fault(Reaches, "unbounded as 0", unbounded_as_0),
    fault(Reaches, "X above no signal counted", constant_counted),
    fault(Reaches, "place of a table refused", other_place),
    fault(Reaches, "byte of the table of a reach", input_byte),
    fault(BasicTexts, "bit of the basic text", basic_bit),
    fault(BasicTexts, "a `;` missing", semicolon_missing),
    fault(BasicTexts, "an index with a leading zero", leading_zero),
    fault(BasicTexts, "Strict kept", strict_kept),
    fault(BasicTexts, "the other model", other_model),
    fault(BasicTexts, "a blank behind the last token", last_blank),
    fault(BasicTexts, "count of bytes", more_nodes),
    fault(BasicTexts, "number of a refused basic text", other_number),
    fault(BasicTexts, "place of a refused basic text", other_place),
    fault(BasicTexts, "22 at the signal before", signal_before),
    fault(BasicTexts, "a just fitting text refused", fitting_text),
    fault(BasicTexts, "byte behind the basic text", text_tail),
    fault(BasicTexts, "byte of a refused basic text", refused_text),
    fault(BasicTexts, "byte after the text's room", after_rows),
    fault(BasicTexts, "byte before the text's room", before_rows),
    fault(BasicTexts, "writer's work buffer", last_work_byte),
    fault(BasicTexts, "writer's short work buffer", short_work),
    fault(Diagnoses, "a failing recording holds", held),
    fault(Diagnoses, "the line after", line_after),
    fault(Diagnoses, "number of a refused diagnosis", other_number),
    fault(Diagnoses, "place of a refused diagnosis", other_place),
    fault(Diagnoses, "bit of the diagnosed rows", diagnosed_bit),
    fault(Diagnoses, "byte after the diagnosed rows", after_rows),
    fault(Diagnoses, "byte of the diagnosed recording", input_byte),
    fault(Diagnoses, "rows of a refused diagnosis", refused_text),
    fault(Diagnoses, "diagnosis' work buffer", last_work_byte),
    fault(Diagnoses, "diagnosis' short work buffer", short_work),
];

unsafe fn flip_node(left: &mut Left) {
    if !left.refused() {
        *left.nodes.add(left.node_count() / 2) ^= 1 << 17;
    }
}

unsafe fn flip_entry(left: &mut Left) {
    if !left.refused() && left.signal_count() > 0 {
        *left.signals.add(left.signal_count() - 1) ^= 1 << 31;
    }
}

unsafe fn more_nodes(left: &mut Left) {
    if !left.refused() {
        left.answer += 1 << 32;
    }
}

unsafe fn more_signals(left: &mut Left) {
    if !left.refused() {
        left.answer += 1;
    }
}

unsafe fn other_number(left: &mut Left) {
    if left.refused() {
        left.answer ^= 1 << 32;
    }
}

unsafe fn other_place(left: &mut Left) {
    if left.refused() {
        left.answer ^= 1;
    }
}

unsafe fn fitting(left: &mut Left) {
    if !left.refused() && left.node_count() == left.node_room {
        left.answer = 1 << 63 | 18 << 32;
    }
}

unsafe fn short_room(left: &mut Left) {
    if left.answer == 1 << 63 | 18 << 32 {
        left.answer = (left.node_room as u64) << 32 | left.signal_room as u64;
    }
}

unsafe fn node_tail(left: &mut Left) {
    if !left.refused() && left.node_count() < left.node_room {
        *left.nodes.add(left.node_count()) ^= 1;
    }
}

unsafe fn entry_tail(left: &mut Left) {
    if !left.refused() && left.signal_count() < left.signal_room {
        *left.signals.add(left.signal_count()) ^= 1;
    }
}

unsafe fn refused_node(left: &mut Left) {
    if left.refused() && left.node_room > 0 {
        *left.nodes ^= 1;
    }
}

unsafe fn before_nodes(left: &mut Left) {
    *left.nodes.sub(1) ^= 1;
}

unsafe fn after_nodes(left: &mut Left) {
    *left.nodes.add(left.node_room) ^= 1;
}

unsafe fn before_signals(left: &mut Left) {
    *left.signals.sub(1) ^= 1;
}

unsafe fn after_signals(left: &mut Left) {
    *left.signals.add(left.signal_room) ^= 1;
}

unsafe fn before_work(left: &mut Left) {
    *left.work.sub(1) ^= 1;
}

unsafe fn after_work(left: &mut Left) {
    *left.work.add(left.work_size) ^= 1;
}

unsafe fn after_rows(left: &mut Left) {
    *left.rows.add(left.rows_size) ^= 1;
}

unsafe fn first_work_byte(left: &mut Left) {
    if left.work_size >= WORK_BYTES {
        *left.work ^= 1;
    }
}

unsafe fn last_work_byte(left: &mut Left) {
    if left.work_size >= WORK_BYTES {
        *left.work.add(WORK_BYTES - 1) ^= 1;
    }
}

unsafe fn beyond(left: &mut Left) {
    if left.work_size > WORK_BYTES {
        *left.work.add(WORK_BYTES) ^= 1;
    }
}

unsafe fn short_work(left: &mut Left) {
    if left.work_size < WORK_BYTES && left.work_size > 0 {
        *left.work.add(left.work_size - 1) ^= 1;
    }
}

unsafe fn input_byte(left: &mut Left) {
    if left.input_size > 0 {
        *left.input.add(left.input_size / 2) ^= 1;
    }
}

unsafe fn unlike_refused(left: &mut Left) {
    let text = std::slice::from_raw_parts(left.input, left.input_size);
    let has = |word: &[u8]| place_of(text, word).is_some();
    if !left.refused() && has(b"Moore") && has(b"Mealy") {
        left.answer = 1 << 63 | 14 << 32;
    }
}

/// `! X a` as `X ! a`.
unsafe fn next_above_not(left: &mut Left) {
    if left.refused() {
        return;
    }
    for at in 1..left.node_count() {
        let (below, node) = (*left.nodes.add(at - 1), *left.nodes.add(at));
        if below >> 28 == Node::NEXT && node == Node::pack(Node::NOT, at - 1, 0).0 {
            *left.nodes.add(at - 1) = of_kind(below, Node::NOT);
            *left.nodes.add(at) = of_kind(node, Node::NEXT);
        }
    }
}

unsafe fn row_bit(left: &mut Left) {
    if !left.refused() {
        *left.rows ^= 0x80;
    }
}

const LACKING: u64 = 1 << 63 | 23 << 32;

unsafe fn lacking_as_wrong(left: &mut Left) {
    if left.answer == LACKING {
        left.answer = 1 << 63 | 20 << 32;
    }
}

/// Every table has a node, so that a room of no bytes is too short.
unsafe fn short_before_lacking(left: &mut Left) {
    if left.answer == LACKING && left.rows_size == 0 {
        left.answer = 1 << 63 | 18 << 32;
    }
}

unsafe fn before_rows(left: &mut Left) {
    *left.rows.sub(1) ^= 1;
}

/// The positions of an accepted recording, and the rows' bytes in all.
unsafe fn measures(left: &Left) -> (usize, usize) {
    let header = std::slice::from_raw_parts(left.input, 2);
    let positions = usize::from(header[0]) << 4 | usize::from(header[1] >> 4);
    (positions, left.node_count() * positions.div_ceil(8))
}

unsafe fn spare_bits(left: &mut Left) {
    if left.refused() {
        return;
    }
    let (positions, bytes) = measures(left);
    if !positions.is_multiple_of(8) {
        *left.rows.add(bytes - 1) |= 1;
    }
}

/// As if the bytes behind the last whole word of a row were not filled.
unsafe fn odd_bytes(left: &mut Left) {
    if left.refused() {
        return;
    }
    let (positions, bytes) = measures(left);
    for odd in 0..positions.div_ceil(8) % 8 {
        *left.rows.add(bytes - 1 - odd) = u8::MAX;
    }
}

unsafe fn more_reach(left: &mut Left) {
    if !left.refused() && left.answer > 1 {
        left.answer += 1 << 32;
    }
}

unsafe fn unbounded_as_0(left: &mut Left) {
    if left.answer == 1 {
        left.answer = 0;
    }
}

unsafe fn constant_counted(left: &mut Left) {
    if left.answer == 0 && left.input_size > 0 {
        let root = left.input.cast::<u32>().add(left.input_size / 4 - 1);
        left.answer = u64::from(*root >> 28 == Node::NEXT) << 32;
    }
}

/// The basic text that an accepted writer left, with its room.
unsafe fn basic_text(left: &Left) -> (Vec<u8>, usize) {
    let size = if left.refused() { 0 } else { left.node_count() };
    let text = std::slice::from_raw_parts(left.rows, size).to_vec();
    (text, left.rows_size)
}

/// Another text in its place, if there is room.
unsafe fn put_text(left: &mut Left, text: &[u8]) {
    if text.len() <= left.rows_size {
        left.rows
            .copy_from_nonoverlapping(text.as_ptr(), text.len());
        left.answer = (text.len() as u64) << 32;
    }
}

/// The first place of some bytes in the basic text.
fn place_of(text: &[u8], bytes: &[u8]) -> Option<usize> {
    text.windows(bytes.len()).position(|window| window == bytes)
}

unsafe fn basic_bit(left: &mut Left) {
    let (text, _) = basic_text(left);
    if !text.is_empty() {
        *left.rows.add(text.len() / 2) ^= 1;
    }
}

unsafe fn semicolon_missing(left: &mut Left) {
    let (mut text, _) = basic_text(left);
    if let Some(at) = place_of(&text, b" ; } }") {
        text.drain(at..at + 2);
        put_text(left, &text);
    }
}

unsafe fn leading_zero(left: &mut Left) {
    let (mut text, _) = basic_text(left);
    if let Some(at) = place_of(&text, b"@1 ;") {
        text.insert(at + 1, b'0');
        put_text(left, &text);
    }
}

unsafe fn strict_kept(left: &mut Left) {
    let (mut text, _) = basic_text(left);
    if let Some(at) = place_of(&text, b" TARGET") {
        text.splice(at..at, b" , Strict".iter().copied());
        put_text(left, &text);
    }
}

unsafe fn other_model(left: &mut Left) {
    let (mut text, _) = basic_text(left);
    if let Some(at) = place_of(&text, b"TARGET : M") {
        let word = at + b"TARGET : ".len();
        let moore = text[word..].starts_with(b"Moore");
        text[word..word + 5].copy_from_slice(if moore { b"Mealy" } else { b"Moore" });
        put_text(left, &text);
    }
}

unsafe fn last_blank(left: &mut Left) {
    let (mut text, _) = basic_text(left);
    if !text.is_empty() {
        text.push(b' ');
        put_text(left, &text);
    }
}

unsafe fn signal_before(left: &mut Left) {
    if left.answer >> 32 == 1 << 31 | 22 && left.answer as u32 > 0 {
        left.answer -= 1;
    }
}

unsafe fn fitting_text(left: &mut Left) {
    if !left.refused() && left.node_count() == left.rows_size {
        left.answer = 1 << 63 | 18 << 32;
    }
}

unsafe fn text_tail(left: &mut Left) {
    if !left.refused() && left.node_count() < left.rows_size {
        *left.rows.add(left.node_count()) ^= 1;
    }
}

unsafe fn refused_text(left: &mut Left) {
    if left.refused() && left.rows_size > 0 {
        *left.rows ^= 1;
    }
}

/// Is a line of this section named (PRESET 1, ASSERT 2, GUARANTEE 3)?
fn names(left: &Left, section: usize) -> bool {
    !left.refused() && left.node_count() == section
}

unsafe fn held(left: &mut Left) {
    if !left.refused() {
        left.answer = 0;
    }
}

unsafe fn line_after(left: &mut Left) {
    if !left.refused() && left.answer > 0 {
        left.answer += 1;
    }
}

unsafe fn first_line(left: &mut Left) {
    if !left.refused() && left.answer > 0 {
        left.answer = (left.node_count() as u64) << 32 | 1;
    }
}

unsafe fn guarantee_for_assert(left: &mut Left) {
    if names(left, 2) {
        left.answer += 1 << 32;
    }
}

unsafe fn preset_for_guarantee(left: &mut Left) {
    if names(left, 3) {
        left.answer -= 2 << 32;
    }
}

unsafe fn diagnosed_bit(left: &mut Left) {
    if !left.refused() && left.rows_size > 0 {
        *left.rows ^= 0x80;
    }
}

/// Every fault that `compare/blame` has to see: another line than the one that failed.
pub static OF_LINES: [Fault; 7] = [
    fault(Diagnoses, "a failing recording holds", held),
    fault(Diagnoses, "the line after", line_after),
    fault(Diagnoses, "the first line always", first_line),
    fault(Diagnoses, "GUARANTEE for ASSERT", guarantee_for_assert),
    fault(Diagnoses, "PRESET for GUARANTEE", preset_for_guarantee),
    fault(Diagnoses, "bit of the diagnosed rows", diagnosed_bit),
    fault(Diagnoses, "a just fitting room refused", fitting_rows),
];

unsafe fn fitting_rows(left: &mut Left) {
    if !left.refused() {
        left.answer = 1 << 63 | 18 << 32;
    }
}

/// Every fault that `compare/meaning` has to see: what is converted or evaluated means something else.
pub static OF_MEANING: [Fault; 10] = [
    fault(Texts, "W as U", weak_as_strong),
    fault(Texts, "-> as its converse", converse),
    fault(Texts, "G as F", always_as_some),
    fault(Texts, "X above a signal left out", next_left_out),
    fault(Texts, "X above a signal as F", next_as_some),
    fault(Texts, "the first two entries of the list swapped", swapped),
    fault(Texts, "an index of the list", index_changed),
    fault(Texts, "the last node left out", fewer_nodes),
    fault(Recordings, "a bit of the root's row", root_bit),
    fault(Recordings, "a recording refused", refused_recording),
];

/// Gives each accepted node of a kind its spoiled word.
unsafe fn spoil_kind(left: &mut Left, kind: u32, spoil: impl Fn(u32) -> u32) {
    if left.refused() {
        return;
    }
    for at in 0..left.node_count() {
        let node = left.nodes.add(at);
        if *node >> 28 == kind {
            *node = spoil(*node);
        }
    }
}

fn of_kind(node: u32, kind: u32) -> u32 {
    node & 0x0fff_ffff | kind << 28
}

unsafe fn weak_as_strong(left: &mut Left) {
    spoil_kind(left, Node::WEAK_UNTIL, |node| of_kind(node, Node::UNTIL));
}

unsafe fn always_as_some(left: &mut Left) {
    spoil_kind(left, Node::GLOBALLY, |node| of_kind(node, Node::FINALLY));
}

/// X above a signal becomes that signal twice, joined by `&&`.
unsafe fn next_left_out(left: &mut Left) {
    spoil_next(left, |operand| Node::pack(Node::AND, operand, operand).0);
}

unsafe fn next_as_some(left: &mut Left) {
    spoil_next(left, |operand| Node::pack(Node::FINALLY, operand, 0).0);
}

/// Gives each X above a signal its spoiled word.
unsafe fn spoil_next(left: &mut Left, spoil: impl Fn(usize) -> u32) {
    if left.refused() {
        return;
    }
    for at in 1..left.node_count() {
        let (below, node) = (*left.nodes.add(at - 1), Node(*left.nodes.add(at)));
        let above = node.kind() == Node::NEXT && node.first() == at - 1;
        if above && below >> 28 == Node::SIGNAL {
            *left.nodes.add(at) = spoil(at - 1);
        }
    }
}

unsafe fn converse(left: &mut Left) {
    spoil_kind(left, Node::IMPLIES, |node| {
        Node::pack(Node::IMPLIES, Node(node).second(), Node(node).first()).0
    });
}

unsafe fn swapped(left: &mut Left) {
    if !left.refused() && left.signal_count() > 1 {
        std::ptr::swap(left.signals, left.signals.add(1));
    }
}

unsafe fn index_changed(left: &mut Left) {
    if !left.refused() && left.signal_count() > 0 {
        *left.signals ^= 1 << 8;
    }
}

unsafe fn fewer_nodes(left: &mut Left) {
    if !left.refused() {
        left.answer -= 1 << 32;
    }
}

unsafe fn root_bit(left: &mut Left) {
    if !left.refused() {
        *left.rows.add(left.rows_size - 1) ^= 0x80;
    }
}

unsafe fn refused_recording(left: &mut Left) {
    left.answer = 1 << 63 | 20 << 32;
}
