//! Conversions in processes of their own: one that takes too long is ended, one that dies takes no other file with it.

use crate::files;
use crate::formula::{Formula, Refusal, Room};
use std::io::{self, BufReader, ErrorKind, Read, Write};
use std::os::fd::{AsFd, OwnedFd};
use std::os::unix::net::UnixStream;
use std::process::{self, Child, Command, Stdio};
use std::sync::Mutex;
use std::thread;
use std::time::{Duration, Instant};
use tlsf::{Fault, Section};

/// Room for the deepest texts in every form, many times over.
const STACK_KB: usize = 64 << 10;
/// Names another size in the environment, in KB as `ulimit -s` has it.
const STACK_VARIABLE: &str = "VASCULPI_STACK";

/// What is told of a text that took too long.
pub const OUT_OF_TIME: &str = "given up, out of time (--seconds)";

/// What became of a text.
pub enum Outcome {
    Accepted(Formula),
    Refused(Refusal),
    OutOfTime,
    /// The worker could not be started, or ended without an answer.
    Broken(String),
}

/// Why there is no answer.
enum Failure {
    OutOfTime,
    Broken(String),
}

/// What the library is asked for a message alone may cost no more: a mended text may be one that takes for ever.
const MOST_FOR_A_MESSAGE: Duration = Duration::from_secs(2);

/// In place of a form: a beginning and many endings, of each text the answer alone.
const ANSWERS: u32 = 0x100;
/// In place of a form: a text and a recording, of which the failing line is told.
const DIAGNOSE: u32 = 0x101;

/// The sections whose lines can fail, by their numbers in a reply from 1 on; 0 stands for no line.
const SECTIONS: [Section; 3] = [Section::Preset, Section::Assert, Section::Guarantee];

/// Workers that wait for a text, and the time that each text is given.
pub struct Pool {
    idle: Mutex<Vec<Worker>>,
    limit: Option<Duration>,
}

impl Pool {
    /// With 0 seconds there is no limit.
    pub fn new(seconds: u64) -> Pool {
        let limit = (seconds > 0).then(|| Duration::from_secs(seconds));
        Pool {
            idle: Mutex::new(Vec::new()),
            limit,
        }
    }

    pub fn convert(&self, text: &[u8], form: u32) -> Outcome {
        let mut request = words(&[form, text.len() as u32]);
        request.extend_from_slice(text);
        match self.ask(&request, self.limit, read_answer) {
            Ok(answer) => answer.map_or_else(Outcome::Refused, Outcome::Accepted),
            Err(Failure::OutOfTime) => Outcome::OutOfTime,
            Err(Failure::Broken(reason)) => Outcome::Broken(reason),
        }
    }

    /// What the library answers to a text's beginning with each of the endings: a refusal, or nothing if it is accepted.
    pub fn answers(&self, beginning: &[u8], endings: &[&str]) -> Option<Vec<Option<Refusal>>> {
        let size = 4 + beginning.len() + endings.iter().map(|ending| 4 + ending.len()).sum::<usize>();
        let mut request = words(&[ANSWERS, size as u32, beginning.len() as u32]);
        request.extend_from_slice(beginning);
        for ending in endings {
            push_words(&mut request, &[ending.len() as u32]);
            request.extend_from_slice(ending.as_bytes());
        }
        let read = |stream: &mut Stream| read_entries(stream, 2 * endings.len());
        let answers = self.ask(&request, Some(MOST_FOR_A_MESSAGE), read).ok()?;
        let answer = |pair: &[u32]| {
            (pair[0] > 0).then_some(Refusal {
                number: pair[0],
                place: pair[1] as usize,
            })
        };
        Some(answers.chunks_exact(2).map(answer).collect())
    }

    /// The line of a text that fails on a recording; nothing if it holds there, or the library does not tell.
    pub fn diagnose(&self, text: &[u8], recording: &[u8]) -> Option<Fault> {
        let size = 4 + text.len() + recording.len();
        let mut request = words(&[DIAGNOSE, size as u32, text.len() as u32]);
        request.extend_from_slice(text);
        request.extend_from_slice(recording);
        let [section, line] = self.ask(&request, self.limit, |stream| read_words::<2>(stream)).ok()?;
        let section = *SECTIONS.get((section as usize).checked_sub(1)?)?;
        Some(Fault {
            section,
            line: line as usize,
        })
    }

    /// A worker that has answered other texts may end by no fault of this one: only one that was started for it tells that it is broken.
    fn ask<T>(&self, request: &[u8], limit: Option<Duration>, read: impl Fn(&mut Stream) -> io::Result<T>) -> Result<T, Failure> {
        loop {
            let mut worker = match self.take() {
                Ok(worker) => worker,
                Err(error) => return Err(Failure::Broken(format!("no worker could be started: {}", files::reason(&error)))),
            };
            let asked = worker.limit(limit).and_then(|()| worker.stream.get_mut().write_all(request));
            match asked.and_then(|()| read(&mut worker.stream)) {
                Ok(answer) => {
                    worker.has_answered = true;
                    self.give_back(worker);
                    return Ok(answer);
                }
                Err(error) if matches!(error.kind(), ErrorKind::WouldBlock | ErrorKind::TimedOut) => return Err(Failure::OutOfTime),
                Err(_) if worker.has_answered => {}
                Err(_) => {
                    let reason = format!("the conversion ended without an answer ({})", worker.ending());
                    return Err(Failure::Broken(reason));
                }
            }
        }
    }

    fn take(&self) -> io::Result<Worker> {
        let waiting = self.idle.lock().ok().and_then(|mut idle| idle.pop());
        waiting.map_or_else(Worker::start, Ok)
    }

    fn give_back(&self, worker: Worker) {
        if let Ok(mut idle) = self.idle.lock() {
            idle.push(worker);
        }
    }
}

/// Both ways: what is asked, and what is answered, which is read in few pieces.
type Stream = BufReader<UnixStream>;

/// As much as most answers have.
const PIECE: usize = 32 << 10;

struct Worker {
    /// Its standard input is a pipe that nothing is written to: it tells the worker when this process has ended.
    child: Child,
    stream: Stream,
    limit: Option<Duration>,
    has_answered: bool,
}

impl Worker {
    fn start() -> io::Result<Worker> {
        let (stream, theirs) = UnixStream::pair()?;
        let child = Command::new(std::env::current_exe()?)
            .arg("worker")
            .stdin(Stdio::piped())
            .stdout(Stdio::from(OwnedFd::from(theirs)))
            .stderr(Stdio::null())
            .spawn()?;
        Ok(Worker {
            child,
            stream: BufReader::with_capacity(PIECE, stream),
            limit: None,
            has_answered: false,
        })
    }

    /// How long an answer is waited for.
    fn limit(&mut self, limit: Option<Duration>) -> io::Result<()> {
        if limit != self.limit {
            self.stream.get_ref().set_read_timeout(limit)?;
            self.limit = limit;
        }
        Ok(())
    }

    /// How the process of a worker that no longer answers ended.
    fn ending(&mut self) -> String {
        let patience = Instant::now() + Duration::from_secs(1);
        while Instant::now() < patience {
            match self.child.try_wait() {
                Ok(Some(status)) => return status.to_string(),
                Ok(None) => thread::sleep(Duration::from_millis(1)),
                Err(error) => return files::reason(&error),
            }
        }
        "its process still runs".to_string()
    }
}

impl Drop for Worker {
    fn drop(&mut self) {
        let _ = self.child.kill();
        let _ = self.child.wait();
    }
}

/// The worker's own side: one thread answers, the other waits for whoever started it to end.
pub fn serve() -> io::Result<()> {
    let stream = UnixStream::from(io::stdout().as_fd().try_clone_to_owned()?);
    thread::Builder::new().stack_size(stack_bytes()).spawn(move || {
        let _ends = EndsProcess;
        answer_all(stream)
    })?;
    io::copy(&mut io::stdin().lock(), &mut io::sink())?;
    Ok(())
}

/// Without the thread that answers, by whatever it ended, the process is of no use.
struct EndsProcess;

impl Drop for EndsProcess {
    fn drop(&mut self) {
        process::exit(1);
    }
}

fn answer_all(stream: UnixStream) -> io::Result<()> {
    let mut requests = BufReader::with_capacity(PIECE, stream);
    let mut room = Room::new();
    let mut text = Vec::new();
    loop {
        let [form, size] = read_words::<2>(&mut requests)?;
        text.resize(size as usize, 0);
        requests.read_exact(&mut text)?;
        let reply = match form {
            ANSWERS => replies(&text, &mut room),
            DIAGNOSE => diagnosis(&text, &mut room),
            _ => reply(room.convert(&text, form)),
        };
        requests.get_mut().write_all(&reply)?;
    }
}

fn stack_bytes() -> usize {
    let named = std::env::var(STACK_VARIABLE).ok().and_then(|size| size.parse::<usize>().ok());
    named.unwrap_or(STACK_KB).saturating_mul(1024)
}

/// An accepted text's nodes and signal list, or its refusal.
fn reply(answer: Result<(&[u32], &[u32]), Refusal>) -> Vec<u8> {
    match answer {
        Ok((nodes, signals)) => {
            let mut reply = Vec::with_capacity(4 * (3 + nodes.len() + signals.len()));
            push_words(&mut reply, &[0, nodes.len() as u32, signals.len() as u32]);
            push_words(&mut reply, nodes);
            push_words(&mut reply, signals);
            reply
        }
        Err(refusal) => words(&[1, refusal.number, refusal.place as u32]),
    }
}

/// For each ending the number and place of the refusal, or two zeros.
fn replies(mut request: &[u8], room: &mut Room) -> Vec<u8> {
    let mut part = || {
        let [length] = read_words::<1>(&mut request).ok()?;
        let (part, rest) = request.split_at_checked(length as usize)?;
        request = rest;
        Some(part)
    };
    let mut text = part().unwrap_or_default().to_vec();
    let beginning = text.len();
    let mut replies = Vec::new();
    while let Some(ending) = part() {
        text.truncate(beginning);
        text.extend_from_slice(ending);
        let (number, place) = room.answer(&text).map_or((0, 0), |refusal| (refusal.number, refusal.place));
        push_words(&mut replies, &[number, place as u32]);
    }
    replies
}

/// The section's number and the line's, or two zeros.
fn diagnosis(mut request: &[u8], room: &mut Room) -> Vec<u8> {
    let parts = read_words::<1>(&mut request)
        .ok()
        .and_then(|[length]| request.split_at_checked(length as usize));
    let fault = parts.and_then(|(text, recording)| room.diagnose(text, recording));
    let answer = fault.and_then(|fault| {
        let section = SECTIONS.iter().position(|section| *section == fault.section)?;
        Some([section as u32 + 1, fault.line as u32])
    });
    words(&answer.unwrap_or_default())
}

fn read_answer(stream: &mut Stream) -> io::Result<Result<Formula, Refusal>> {
    let [refused, upper, lower] = read_words::<3>(stream)?;
    if refused == 1 {
        return Ok(Err(Refusal {
            number: upper,
            place: lower as usize,
        }));
    }
    let nodes = read_entries(stream, upper as usize)?;
    let signals = read_entries(stream, lower as usize)?;
    Ok(Ok(Formula { nodes, signals }))
}

fn words(words: &[u32]) -> Vec<u8> {
    let mut bytes = Vec::new();
    push_words(&mut bytes, words);
    bytes
}

fn push_words(bytes: &mut Vec<u8>, words: &[u32]) {
    for word in words {
        bytes.extend_from_slice(&word.to_le_bytes());
    }
}

fn read_words<const COUNT: usize>(input: &mut impl Read) -> io::Result<[u32; COUNT]> {
    let mut words = [0; COUNT];
    for word in &mut words {
        let mut bytes = [0; 4];
        input.read_exact(&mut bytes)?;
        *word = u32::from_le_bytes(bytes);
    }
    Ok(words)
}

fn read_entries(input: &mut impl Read, count: usize) -> io::Result<Vec<u32>> {
    let mut bytes = vec![0; count * 4];
    input.read_exact(&mut bytes)?;
    let entry = |four: &[u8]| u32::from_le_bytes([four[0], four[1], four[2], four[3]]);
    Ok(bytes.chunks_exact(4).map(entry).collect())
}
