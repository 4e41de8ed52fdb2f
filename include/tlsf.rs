// The proved library for callers in Rust, as tlsf.h declares it and on the same terms: a slice is a pointer and the number of its elements; an answer is one word,
// accepted = nodes * 2^32 + signals, refused = 2^63 + number * 2^32 + place. For `include!`; rust/tlsf is the same for safe Rust.
//
// Safety: every pointer is aligned for its elements and not null, also where their number is 0, and what a call writes overlaps nothing else that it is passed. A
// slice's `as_ptr` or `as_mut_ptr` with its `len` is such a pair. Nothing else is asked of a caller: any bytes in any buffer are answered.
#[allow(dead_code)]
extern "C" {
    /// Reads a text: `work` of 65,536 bytes or more, zero afterwards; the formula's nodes to the front of `nodes`, the signal list to the front of `signals`.
    fn tlsf_read(
        text: *const u8,
        text_size: usize,
        work: *mut u8,
        work_size: usize,
        nodes: *mut u32,
        node_room: usize,
        signals: *mut u32,
        signal_room: usize,
    ) -> u64;

    /// Reads a text and writes its formula in a form: 0 as expanded, 1 negation form, 2 core form.
    fn tlsf_convert(
        text: *const u8,
        text_size: usize,
        form: u32,
        work: *mut u8,
        work_size: usize,
        nodes: *mut u32,
        node_room: usize,
        signals: *mut u32,
        signal_room: usize,
    ) -> u64;

    /// Reads a text and writes a basic one of its nodes to the front of `out`: accepted = bytes * 2^32.
    fn tlsf_write_basic(
        text: *const u8,
        text_size: usize,
        work: *mut u8,
        work_size: usize,
        out: *mut u8,
        out_room: usize,
    ) -> u64;

    /// Writes a form of a table's root to the front of `out`.
    fn tlsf_rewrite(
        nodes: *const u32,
        node_count: usize,
        form: u32,
        out: *mut u32,
        out_room: usize,
    ) -> u64;

    /// Fills a row of bits, rounded up to bytes, for every node over a recording.
    fn tlsf_evaluate(
        nodes: *const u32,
        node_count: usize,
        signals: u32,
        recording: *const u8,
        recording_size: usize,
        rows: *mut u8,
        row_room: usize,
    ) -> u64;

    /// Which line of a text failed on a recording, the rows as `tlsf_evaluate` leaves them: accepted = section * 2^32 + line, 1 PRESET, 2 ASSERT, 3 GUARANTEE, lines from
    /// 1; 0 where the recording holds.
    fn tlsf_diagnose(
        text: *const u8,
        text_size: usize,
        recording: *const u8,
        recording_size: usize,
        work: *mut u8,
        work_size: usize,
        rows: *mut u8,
        row_room: usize,
    ) -> u64;

    /// How far ahead a table's root looks: accepted = reach * 2^32, or 1 where there is no bound.
    fn tlsf_reach(nodes: *const u32, node_count: usize) -> u64;
}
