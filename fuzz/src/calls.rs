//! One hostile call of an entry point, with every buffer between pages, beside the second converter.

use crate::inputs;
use crate::pages::Paged;
use crate::state::{Stage, State};
use crate::worker;
use compare::answers::{in_words, packed, unpacked};
use compare::case::{Case, Difference};
use compare::lent;
use compare::library::{Job, Library, TextCall};
use compare::reading::{cleared, converted, within, Rooms};
use compare::{diagnosing, rewriting, writing};
use second::answer::Answer;
use second::generate::{clashes, failing, prng::Prng};
use second::{basic, evaluator, limits, reach, reader, rewriter};

/// The most that is lent: of bytes, of words, and of rows.
pub const MOST_BYTES: usize = 140_000;
pub const MOST_WORDS: usize = 20_000;
const MOST_ROWS: usize = 2_200_000;

pub struct Caller {
    library: Library,
    state: State,
    /// Whether inputs are written to a file before the call.
    keep: bool,
    input: Paged<u8>,
    /// A recording beside a text.
    recording: Paged<u8>,
    table: Paged<u32>,
    work: Paged<u8>,
    nodes: Paged<u32>,
    signals: Paged<u32>,
    rows: Paged<u8>,
}

impl Caller {
    pub fn new(library: Library, state: State, keep: bool) -> Caller {
        Caller {
            library,
            state,
            keep,
            input: Paged::new(MOST_BYTES),
            recording: Paged::new(MOST_BYTES),
            table: Paged::new(MOST_WORDS),
            work: Paged::new(MOST_BYTES),
            nodes: Paged::new(MOST_WORDS),
            signals: Paged::new(MOST_WORDS),
            rows: Paged::new(MOST_ROWS),
        }
    }

    /// Draws a case and calls.
    pub fn call(&mut self, case: Case) -> Result<(), Difference> {
        self.state.enter(case.index, Stage::Second);
        let mut rng = case.rng();
        match rng.below(20) {
            0..=1 => self.rewrite(case, &mut rng),
            2..=4 => self.evaluate(case, &mut rng),
            5 => self.reach(case, &mut rng),
            6..=8 => self.write(case, &mut rng),
            9..=10 => self.diagnose(case, &mut rng),
            _ => {
                let text = inputs::text(&mut rng);
                self.text(case, &mut rng, &text)
            }
        }
    }

    /// The input is drawn, what is due is known: the library's turn.
    fn begin(&self, case: Case, input: &[u8]) {
        if self.keep {
            let file = worker::input_file(case.seed, case.index);
            std::fs::write(file, input).expect("the input can be written");
        }
        self.state.enter(case.index, Stage::Library);
    }

    /// One text, read or converted.
    pub fn text(&mut self, case: Case, rng: &mut Prng, text: &[u8]) -> Result<(), Difference> {
        let due = reader::read_freely(text);
        let job = match rng.one_in(3) {
            true => Job::Read,
            false => Job::Convert(inputs::form(rng)),
        };
        let full = converted(&due, job);
        let rooms = Rooms {
            work: inputs::work_length(rng),
            nodes: inputs::room(rng, full.nodes.len(), MOST_WORDS),
            signals: inputs::room(rng, full.signals.len(), MOST_WORDS),
        };
        let expected = within(full, rooms);
        self.input.hold(rng, lent::bytes(), text);
        self.work.lend(rng, lent::bytes(), rooms.work);
        self.nodes.lend(rng, lent::words(), rooms.nodes);
        self.signals.lend(rng, lent::words(), rooms.signals);
        self.begin(case, text);
        let call = TextCall {
            text: (self.input.pointer(), text.len()),
            work: (self.work.pointer(), rooms.work),
            nodes: (self.nodes.pointer(), rooms.nodes),
            signals: (self.signals.pointer(), rooms.signals),
        };
        let answer = unsafe { self.library.text(job, call) };
        let misfits = [
            self.input.misfit(text),
            self.work.misfit(cleared(rooms.work)),
            self.nodes.misfit(&expected.nodes),
            self.signals.misfit(&expected.signals),
        ];
        let what = || format!("{} with {rooms:?}", job.name());
        let number = usize::from(job != Job::Read);
        self.settle(number, what, text, answer, expected.answer, &misfits)
    }

    fn rewrite(&mut self, case: Case, rng: &mut Prng) -> Result<(), Difference> {
        let nodes = inputs::table(rng, 1 << 14);
        let form = inputs::form(rng);
        let due = rewriter::rewrite(&nodes, form, usize::MAX).nodes.len();
        let room = inputs::room(rng, due, MOST_WORDS);
        let expected = rewriter::rewrite(&nodes, form, room);
        self.table.hold(rng, lent::words(), &nodes);
        self.nodes.lend(rng, lent::words(), room);
        let input = rewriting::bytes(&nodes);
        self.begin(case, &input);
        let (table, count) = (self.table.pointer(), self.table.room());
        let answer =
            unsafe { (self.library.rewrite)(table, count, form, self.nodes.pointer(), room) };
        let misfits = [
            self.table.misfit(&nodes),
            self.nodes.misfit(&expected.nodes),
        ];
        let what = || format!("rewrite in form {form}, room {room}");
        self.settle(2, what, &input, answer, expected.answer, &misfits)
    }

    fn reach(&mut self, case: Case, rng: &mut Prng) -> Result<(), Difference> {
        let nodes = inputs::table(rng, 1 << 14);
        let due = reach::reach(&nodes);
        self.table.hold(rng, lent::words(), &nodes);
        let input = rewriting::bytes(&nodes);
        self.begin(case, &input);
        let answer = unsafe { (self.library.reach)(self.table.pointer(), self.table.room()) };
        let misfits = [self.table.misfit(&nodes)];
        let due = unpacked(compare::reach::packed(due));
        self.settle(4, || "reach".to_string(), &input, answer, due, &misfits)
    }

    fn write(&mut self, case: Case, rng: &mut Prng) -> Result<(), Difference> {
        let text = match rng.one_in(4) {
            true => clashes::text(rng),
            false => inputs::text(rng),
        };
        let full = basic::write(&text, limits::WORK_BYTES, usize::MAX);
        let due = full.as_ref().map_or(0, Vec::len);
        let work = inputs::work_length(rng);
        let room = inputs::room(rng, due, MOST_ROWS);
        let expected = writing::within(full, work, room);
        self.input.hold(rng, lent::bytes(), &text);
        self.work.lend(rng, lent::bytes(), work);
        self.rows.lend(rng, lent::bytes(), room);
        self.begin(case, &text);
        let (input, size) = (self.input.pointer(), self.input.room());
        let (lent, out) = (self.work.pointer(), self.rows.pointer());
        let answer = unsafe { (self.library.write)(input, size, lent, work, out, room) };
        let due = writing::answer(&expected);
        let misfits = [
            self.input.misfit(&text),
            self.work.misfit(cleared(work)),
            self.rows.misfit(&expected.unwrap_or_default()),
        ];
        let what = || format!("write, work buffer {work}, room {room}");
        self.settle(5, what, &text, answer, due, &misfits)
    }

    fn diagnose(&mut self, case: Case, rng: &mut Prng) -> Result<(), Difference> {
        let text = match rng.one_in(2) {
            true => failing::text(rng),
            false => inputs::text(rng),
        };
        let reading = reader::read_freely(&text);
        let signals = reading.signals.len();
        // The meaning takes the square of the positions for each operator.
        let nodes = reading.nodes.len();
        let recording = inputs::recording(rng, signals as u32, nodes.max(nodes * nodes / 100));
        let full = diagnosing::due(&text, &reading, &recording);
        let work = inputs::work_length(rng);
        let room = inputs::room(rng, full.rows.len(), MOST_ROWS);
        let due = diagnosing::within(full, work, room);
        self.input.hold(rng, lent::bytes(), &text);
        self.recording.hold(rng, lent::bytes(), &recording);
        self.work.lend(rng, lent::bytes(), work);
        self.rows.lend(rng, lent::bytes(), room);
        self.begin(case, &text);
        let answer = unsafe {
            (self.library.diagnose)(
                self.input.pointer(),
                self.input.room(),
                self.recording.pointer(),
                self.recording.room(),
                self.work.pointer(),
                work,
                self.rows.pointer(),
                room,
            )
        };
        let misfits = [
            self.input.misfit(&text),
            self.recording.misfit(&recording),
            self.work.misfit(cleared(work)),
            self.rows.misfit(&due.rows),
        ];
        let what = || format!("diagnose, work buffer {work}, room {room}, {recording:02x?}");
        self.settle(6, what, &text, answer, due.answer, &misfits)
    }

    fn evaluate(&mut self, case: Case, rng: &mut Prng) -> Result<(), Difference> {
        let signals = inputs::signal_count(rng);
        let nodes = inputs::table(rng, signals.clamp(1, 255) as usize);
        let recording = inputs::recording(rng, signals, nodes.len());
        let full = evaluator::evaluate(&nodes, signals as usize, &recording, usize::MAX);
        let room = inputs::room(rng, full.rows.len(), MOST_ROWS);
        let short = full.answer.is_accepted() && room < full.rows.len();
        let (due, rows) = match short {
            true => (Answer::refused(18, 0), Vec::new()),
            false => (full.answer, full.rows),
        };
        self.table.hold(rng, lent::words(), &nodes);
        self.input.hold(rng, lent::bytes(), &recording);
        self.rows.lend(rng, lent::bytes(), room);
        let both = [rewriting::bytes(&nodes), recording.clone()].concat();
        self.begin(case, &both);
        let (table, count) = (self.table.pointer(), self.table.room());
        let (input, size) = (self.input.pointer(), self.input.room());
        let answer = unsafe {
            (self.library.evaluate)(
                table,
                count,
                signals,
                input,
                size,
                self.rows.pointer(),
                room,
            )
        };
        let misfits = [
            self.table.misfit(&nodes),
            self.input.misfit(&recording),
            self.rows.misfit(&rows),
        ];
        let what = || format!("evaluate, {signals} signals, room {room}, {recording:02x?}");
        self.settle(3, what, &both, answer, due, &misfits)
    }

    /// Counts an answer that is as due, with buffers as due.
    fn settle(
        &self,
        job: usize,
        what: impl Fn() -> String,
        input: &[u8],
        answer: u64,
        due: Answer,
        misfits: &[Option<String>],
    ) -> Result<(), Difference> {
        let wrong: Vec<&str> = misfits.iter().flatten().map(String::as_str).collect();
        if answer == packed(due) && wrong.is_empty() {
            self.state.count(job, due);
            return Ok(());
        }
        Err(Difference {
            job: what(),
            library: format!("{} {}", in_words(answer), wrong.join("; ")),
            due: in_words(packed(due)),
            input: input.to_vec(),
        })
    }
}
