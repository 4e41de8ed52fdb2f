//! `judge`: the verdict on recorded runs and why, the rows of all nodes, the timing diagram.

use crate::arguments::Judge;
use crate::enumerations;
use crate::excerpt::Excerpt;
use crate::files::{self, Inputs};
use crate::formula::{self, Rows};
use crate::info::Info;
use crate::lines::{self, Line};
use crate::message;
use crate::node;
use crate::outline::{self, Outline};
use crate::recording;
use crate::runs;
use crate::spec::{self, Spec};
use crate::status::{Status, Stop};
use crate::timing;
use crate::why::{Broken, Run, Why};
use crate::worker::Pool;
use std::path::Path;

/// A text with its lines, judged on one run after the other.
pub struct Judged<'a> {
    pub arguments: &'a Judge,
    pub spec: Spec,
    pub outline: Outline,
    pub lines: Vec<Line>,
    pub labels: Vec<String>,
    pub pool: Pool,
}

/// How a run was judged.
pub struct Verdict {
    pub holds: bool,
    pub why: Why,
}

impl Verdict {
    pub fn word(&self) -> &'static str {
        if self.holds {
            "holds"
        } else {
            "fails"
        }
    }

    fn status(&self, vacuous_fails: bool) -> Status {
        match self.holds {
            false => Status::Bad,
            true if vacuous_fails && self.why.excused_by.is_some() => Status::Vacuous,
            true => Status::Good,
        }
    }
}

pub fn run(arguments: &Judge) -> Result<Status, Stop> {
    check_usage(arguments)?;
    let pool = Pool::new(arguments.limit.seconds);
    let spec = spec::read_set(&arguments.spec, arguments.form.form, &arguments.set.set, &pool, Status::Refused)?;
    let outline = outline::of(&spec.text);
    let judged = Judged {
        arguments,
        lines: lines::of(&spec.text, &outline, &spec.signals, &pool),
        labels: spec.labels(),
        outline,
        spec,
        pool,
    };
    let mut statuses = Vec::new();
    for path in &arguments.runs {
        let status = judged.run(path).unwrap_or_else(|stop| {
            files::tell(&stop.message);
            stop.status
        });
        statuses.push(status);
    }
    if statuses.len() > 1 {
        files::tell(&summary(&statuses, arguments.vacuous_fails));
    }
    Ok(statuses.into_iter().max().unwrap_or(Status::Good))
}

fn check_usage(arguments: &Judge) -> Result<(), Stop> {
    let Some(svg) = &arguments.svg else {
        return Ok(());
    };
    if arguments.runs.len() > 1 {
        return Err(Stop::unusable("--svg draws one run: judge them one by one"));
    }
    Ok(Inputs::of(arguments.runs.iter().chain([&arguments.spec])).check_apart(svg)?)
}

fn summary(statuses: &[Status], vacuous_fails: bool) -> String {
    let count = |wanted: &[Status]| statuses.iter().filter(|status| wanted.contains(status)).count();
    let (good, vacuous) = (count(&[Status::Good]), count(&[Status::Vacuous]));
    let mut parts = vec![format!("{} hold", good + vacuous), format!("{} fail", count(&[Status::Bad]))];
    if vacuous_fails {
        parts[0] = format!("{} hold ({vacuous} of them since nothing was owed)", good + vacuous);
    }
    let others = count(&[Status::Unusable, Status::Refused]);
    if others > 0 {
        parts.push(format!("{others} not judged"));
    }
    format!("{} runs: {}\n", statuses.len(), parts.join(", "))
}

impl Judged<'_> {
    fn run(&self, path: &Path) -> Result<Status, Stop> {
        let recording = runs::read(path, &self.spec, &self.arguments.table, Status::Refused)?;
        let rows = self.rows(path, &recording)?;
        let holds = rows.holds(self.spec.formula.nodes.len().saturating_sub(1), 0);
        let lines = Run::of(self, &recording);
        let lines = lines.map_err(|refusal| Stop {
            message: message::of_recording(path, &recording, refusal, &self.labels),
            status: Status::Refused,
        })?;
        let verdict = Verdict {
            holds,
            why: lines.why(holds),
        };
        let mut told = if self.arguments.runs.len() > 1 {
            format!("{}: ", files::shown(path))
        } else {
            String::new()
        };
        told.push_str(&format!("{}\n{}", verdict.word(), self.reasons(&verdict, &recording)));
        if self.arguments.rows {
            told.push_str(&table(&self.spec, &rows, recording::loop_start(&recording)));
        }
        // A picture on standard output stands alone there.
        match &self.arguments.svg {
            Some(svg) if files::is_standard(svg) => files::tell(&told),
            _ => files::print(told.as_bytes())?,
        }
        if let Some(svg) = &self.arguments.svg {
            let picture = timing::diagram(self, &lines, &rows, &verdict, path, &recording)?;
            files::write_whole(svg, picture.svg().as_bytes())?;
        }
        Ok(verdict.status(self.arguments.vacuous_fails))
    }

    fn rows(&self, path: &Path, recording: &[u8]) -> Result<Rows, Stop> {
        let rows = formula::evaluate(&self.spec.formula.nodes, self.spec.signals.len(), recording);
        rows.map_err(|refusal| Stop {
            message: message::of_recording(path, recording, refusal, &self.labels),
            status: Status::Refused,
        })
    }

    /// What stands under the verdict.
    fn reasons(&self, verdict: &Verdict, recording: &[u8]) -> String {
        let mut reasons = String::new();
        if let Some(excuse) = &verdict.why.excused_by {
            let owed = self.owed(excuse);
            reasons.push_str(&self.reason(&format!("{owed}: "), "", excuse, recording));
        }
        if let Some(broken) = &verdict.why.broken {
            let excuse = if verdict.holds { " (which was not owed)" } else { "" };
            reasons.push_str(&self.reason("", excuse, broken, recording));
        }
        reasons
    }

    pub fn is_strict(&self) -> bool {
        self.outline.is_strict(&self.spec.text)
    }

    /// Whether the text or one of its buses gives a section a line.
    pub fn has_lines(&self, section: &str) -> bool {
        self.lines.iter().any(|line| line.section == section)
    }

    /// What an assumption that fails leaves owed.
    pub fn owed(&self, excuse: &Broken) -> String {
        let section = self.lines[excuse.line].section;
        let preset = section != "INITIALLY" && self.has_lines("PRESET");
        let assert = section != "INITIALLY" && self.is_strict() && self.has_lines("ASSERT");
        match (section, excuse.position) {
            ("ASSUME", _) if assert => "GUARANTEE was not owed".to_string(),
            ("REQUIRE", Some(position @ 1..)) if assert => format!("ASSERT was owed before position {position} only"),
            _ if preset => "nothing but PRESET was owed".to_string(),
            _ => "nothing was owed".to_string(),
        }
    }

    fn reason(&self, before: &str, after: &str, broken: &Broken, recording: &[u8]) -> String {
        let line = &self.lines[broken.line];
        let fault = self.fault(broken);
        if let Some(bus) = line.bus {
            let said = broken.position.map(|position| self.without_value(bus, position, recording));
            return format!("  {before}{fault}{after}: {}\n", said.unwrap_or_default());
        }
        let place = Excerpt::new(String::new(), &self.spec.text, line.start);
        let file = files::shown(&self.arguments.spec);
        let mut reason = format!("  {before}{fault}{after}\n");
        reason.push_str(&format!(
            "    {file}:{}:{}: {}\n",
            place.line,
            place.column,
            shortened(&line.source)
        ));
        if let Some(part) = &broken.part {
            reason.push_str(&format!("    {}\n", part.said));
        }
        reason
    }

    /// Which line is false, and where.
    pub fn fault(&self, broken: &Broken) -> String {
        let line = &self.lines[broken.line];
        let written = (line.number > 0).then_some(line.number);
        let number = broken
            .number
            .or(written)
            .map(|number| format!(" line {number}"))
            .unwrap_or_default();
        let implied = if line.bus.is_some() && !number.is_empty() {
            ", an implied one,"
        } else {
            ""
        };
        let at = broken
            .position
            .map(|position| format!(" at position {position}"))
            .unwrap_or_default();
        format!("{}{number}{implied} is false{at}", line.section)
    }

    /// What an implied line says: the bus of an enumeration has none of its values.
    fn without_value(&self, bus: usize, position: usize, recording: &[u8]) -> String {
        let text = &self.spec.text;
        let first = &self.spec.signals[bus];
        let all = enumerations::of(text, &self.outline);
        let by = enumerations::of_bus(text, &self.outline, &all, &first.name).map_or("", |by| &by.name);
        let width = first.bus.map_or(1, |(_, width)| width as usize);
        let read = if self.is_late(first.output) {
            recording::after(recording, position)
        } else {
            position
        };
        let bits = timing::bits_at(recording, bus..bus + width, read, self.labels.len());
        let digits: String = bits.iter().map(|&bit| if bit { '1' } else { '0' }).collect();
        let at = if read == position { String::new() } else { format!(" at {read}") };
        format!("{} is {digits}{at}, which no identifier of {by} names", first.name)
    }

    /// Whether the text is converted to the other model, and these signals are read one position later.
    fn is_late(&self, output: bool) -> bool {
        let info = Info::of_outline(&self.spec.text, &self.outline);
        match (info.semantics.as_str(), info.target.as_str()) {
            ("Moore", "Mealy") => !output,
            ("Mealy", "Moore") => output,
            _ => false,
        }
    }
}

fn shortened(source: &str) -> String {
    const MOST: usize = 160;
    match source.char_indices().nth(MOST) {
        Some((end, _)) => format!("{}...", &source[..end]),
        None => source.to_string(),
    }
}

/// A line for every node: number, kind, operands, and its row with the loop in parentheses.
fn table(spec: &Spec, rows: &Rows, loop_start: usize) -> String {
    let labels = spec.labels();
    let heads: Vec<String> = spec.formula.nodes.iter().map(|&node| head(node, &labels)).collect();
    let width = heads.iter().map(|head| head.chars().count()).max().unwrap_or(0);
    let numbers = heads.len().saturating_sub(1).to_string().len();
    let mut table = String::new();
    for (number, head) in heads.iter().enumerate() {
        let bits = bits(&rows.row(number), loop_start);
        table.push_str(&format!("{number:>numbers$} {head:<width$} {bits}\n"));
    }
    table
}

fn head(node: u32, labels: &[String]) -> String {
    let name = node::name(node);
    match (node::first(node), node::second(node)) {
        (number, _) if node::kind(node) == node::SIGNAL => labels.get(number).cloned().unwrap_or_default(),
        (first, _) if node::is_unary(node) => format!("{name} {first}"),
        (first, second) if node::is_binary(node) => format!("{name} {first} {second}"),
        _ => name.to_string(),
    }
}

fn bits(row: &[bool], loop_start: usize) -> String {
    let digit = |&bit: &bool| if bit { '1' } else { '0' };
    let (before, round) = row.split_at(loop_start.min(row.len()));
    let before: String = before.iter().map(digit).collect();
    let round: String = round.iter().map(digit).collect();
    format!("{before}({round})")
}
