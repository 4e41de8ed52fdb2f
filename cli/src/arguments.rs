//! The command line.

use clap::builder::ArgPredicate;
use clap::{Args, Parser, Subcommand, ValueEnum};
use std::path::PathBuf;

/// TLSF v1.1 files to LTL, refusals a maker understands, verdicts and pictures of recorded runs.
#[derive(Parser)]
#[command(name = "vasculpi", version, max_term_width = 100)]
pub struct Arguments {
    #[command(subcommand)]
    pub command: Command,
}

#[derive(Subcommand)]
pub enum Command {
    /// Convert texts to LTL
    ///
    /// Exit status: 0 all accepted, 1 some refused, given up or ended without a result, 2 usage, or files that cannot be read or written.
    Convert(Convert),
    /// Check texts: no output but refusals
    ///
    /// Exit status: 0 all accepted, 1 some refused, given up or ended without a result, 2 usage or files that cannot be read.
    Check(Check),
    /// Print what a text says of itself: INFO, parameters, signals
    ///
    /// Exit status: 0 printed, 1 the text is refused, given up or ended without a result, 2 usage or files that cannot be read.
    Info(InfoArguments),
    /// Print the page of a refusal, or the list of all
    ///
    /// Exit status: 0 printed, 2 usage or a number that no refusal has.
    Explain {
        /// The refusal's number, 1 to 23
        number: Option<u32>,
    },
    /// Tell whether a text holds on recorded runs, and why
    ///
    /// Exit status: 0 all hold, 1 some fails, 2 usage or files that cannot be read or written, 3 the text or a run is refused, 4 with --vacuous-fails: some holds only because nothing was owed.
    Judge(Judge),
    /// Tell how many letters of a run decide about a text
    ///
    /// Exit status: 0 all accepted, 1 some refused, given up or ended without a result, 2 usage or files that cannot be read.
    Reach(Reach),
    /// Make a recording of a bench's table (CSV) or value change dump (VCD)
    ///
    /// The table's first line has the signals' names, bus bits as b[3] or b_3, in any order; each further line has 0 or 1 for every signal at one position.
    ///
    /// Exit status: 0 written, 1 the text is refused or the table is at fault, 2 usage, or files that cannot be read or written.
    Record(Record),
    /// Print a recording as a table (CSV)
    ///
    /// Exit status: 0 printed, 1 the text or the recording is refused, 2 usage or files that cannot be read.
    Show(Show),
    /// Print the completions of a shell
    ///
    /// Exit status: 0 printed, 2 usage.
    #[command(hide = true)]
    Completion {
        /// The shell
        shell: clap_complete::Shell,
    },
    /// Print the manual page
    ///
    /// Exit status: 0 printed, 2 usage.
    #[command(hide = true)]
    Man,
    /// Answer conversions on standard input; the other commands start it
    #[command(hide = true)]
    Worker,
}

#[derive(Args)]
pub struct Convert {
    /// TLSF files, and folders: all .tlsf files below them; standard input if there is none, or for -
    #[arg(value_name = "FILE")]
    pub files: Vec<PathBuf>,
    #[command(flatten)]
    pub form: FormOption,
    /// What to write
    #[arg(long, value_enum, default_value = "listing")]
    #[arg(default_value_ifs([
        ("syntax", ArgPredicate::IsPresent, Some("ltl")),
        ("tick", ArgPredicate::IsPresent, Some("ltl")),
        ("quoted_names", ArgPredicate::Equals("true".into()), Some("ltl")),
    ]))]
    pub to: Target,
    /// With --to ltl, which it implies: whose syntax [default: common]
    #[arg(long, value_enum)]
    pub syntax: Option<Syntax>,
    /// With --to ltl: write X with U and a signal of this name that changes at every position, for a SPIN without X
    #[arg(long, value_name = "NAME", value_parser = plain_name)]
    pub tick: Option<String>,
    /// With --to ltl --syntax spot: the text's own names in double quotes
    #[arg(long)]
    pub quoted_names: bool,
    /// Leave out `true &&`, `true ->`, `G true` and the like: smaller, but not proved
    #[arg(long)]
    pub simplify: bool,
    #[command(flatten)]
    pub set: SetOption,
    /// Write a file for every text into this folder, whole or not at all; the folders below a named folder are kept
    #[arg(long, value_name = "DIR")]
    pub out: Option<PathBuf>,
    /// Write what became of every file, and the counts: a page if the name ends in .html, else JSON; - is standard output
    #[arg(long, value_name = "FILE")]
    pub report: Vec<PathBuf>,
    /// Tell only what has no result
    #[arg(short, long)]
    pub quiet: bool,
    /// How refusals are shown [default: full for one file, short for many]
    #[arg(long, value_enum)]
    pub messages: Option<Messages>,
    #[command(flatten)]
    pub limit: LimitOption,
}

#[derive(Args)]
pub struct Check {
    /// TLSF files, and folders: all .tlsf files below them; - is standard input
    #[arg(value_name = "FILE", required = true)]
    pub files: Vec<PathBuf>,
    #[command(flatten)]
    pub form: FormOption,
    #[command(flatten)]
    pub set: SetOption,
    /// Write what became of every file, and the counts: a page if the name ends in .html, else JSON; - is standard output
    #[arg(long, value_name = "FILE")]
    pub report: Vec<PathBuf>,
    /// How refusals are shown
    #[arg(long, value_enum, default_value_t = Messages::Full)]
    pub messages: Messages,
    #[command(flatten)]
    pub limit: LimitOption,
}

#[derive(Args)]
pub struct InfoArguments {
    /// The TLSF file; - is standard input
    pub file: PathBuf,
    #[command(flatten)]
    pub set: SetOption,
    #[command(flatten)]
    pub limit: LimitOption,
}

#[derive(Args)]
pub struct SetOption {
    /// Give a parameter another value; may be repeated
    #[arg(long, value_name = "NAME=NUMBER", value_parser = setting)]
    pub set: Vec<(String, u32)>,
}

#[derive(Args)]
pub struct Judge {
    /// The TLSF file; - is standard input
    pub spec: PathBuf,
    /// Runs: recordings as `record` writes them, tables (CSV) or value change dumps (VCD)
    #[arg(value_name = "RUN", required = true)]
    pub runs: Vec<PathBuf>,
    #[command(flatten)]
    pub form: FormOption,
    /// End in status 4 if a run holds only because nothing was owed
    #[arg(long)]
    pub vacuous_fails: bool,
    /// Print the row of every node too
    #[arg(long)]
    pub rows: bool,
    /// Write a timing diagram: signals and the text's own lines over the positions; - is standard output
    #[arg(long, value_name = "FILE")]
    pub svg: Option<PathBuf>,
    /// With --svg: draw these signals only, buses by their names
    #[arg(long, value_name = "NAME,..", value_delimiter = ',', requires = "svg")]
    pub signals: Vec<String>,
    /// With --svg: draw these positions only
    #[arg(long, value_name = "FIRST..LAST", value_parser = positions, requires = "svg")]
    pub positions: Option<(usize, usize)>,
    #[command(flatten)]
    pub table: TableOptions,
    #[command(flatten)]
    pub set: SetOption,
    #[command(flatten)]
    pub limit: LimitOption,
}

#[derive(Args)]
pub struct Reach {
    /// TLSF files, and folders: all .tlsf files below them; - is standard input
    #[arg(value_name = "FILE", required = true)]
    pub files: Vec<PathBuf>,
    #[command(flatten)]
    pub form: FormOption,
    #[command(flatten)]
    pub limit: LimitOption,
}

#[derive(Args)]
pub struct Record {
    /// The TLSF file whose signals are recorded
    #[arg(long)]
    pub spec: PathBuf,
    /// The bench's table (CSV) or value change dump (VCD); - is standard input
    #[arg(long, value_name = "FILE")]
    pub csv: PathBuf,
    #[command(flatten)]
    pub table: TableOptions,
    /// The recording to write, whole or not at all; - is standard output
    #[arg(short, long = "output", value_name = "RECORDING")]
    pub output: PathBuf,
    #[command(flatten)]
    pub set: SetOption,
    #[command(flatten)]
    pub limit: LimitOption,
}

/// How tables and dumps are read.
#[derive(Args)]
pub struct TableOptions {
    /// Of a table: the position that comes after the last one, from 0, or `last`
    #[arg(long = "loop", value_name = "L", value_parser = loop_start)]
    pub loop_start: Option<LoopStart>,
    /// Of a table: leave out columns that are no signals of the text
    #[arg(long)]
    pub ignore_other_columns: bool,
    /// Of a VCD: a position before each rise of this variable
    #[arg(long, value_name = "NAME", conflicts_with = "step")]
    pub clock: Option<String>,
    /// Of a VCD: a position every so many units of time
    #[arg(long, value_name = "N", value_parser = clap::value_parser!(u64).range(1..))]
    pub step: Option<u64>,
    /// Of a VCD: the variables of this scope only, as tb.dut
    #[arg(long, value_name = "NAME")]
    pub scope: Option<String>,
}

/// The position that comes after a table's last one.
#[derive(Clone, Copy, PartialEq, Eq)]
pub enum LoopStart {
    Last,
    At(usize),
}

#[derive(Args)]
pub struct Show {
    /// The recording; - is standard input
    pub recording: PathBuf,
    /// The TLSF file whose signals it has; without it they are s0, s1 and so on
    #[arg(long)]
    pub spec: Option<PathBuf>,
    #[command(flatten)]
    pub set: SetOption,
    #[command(flatten)]
    pub limit: LimitOption,
}

#[derive(Args)]
pub struct FormOption {
    /// 0 as expanded, 1 negation form, 2 core form
    #[arg(long, default_value_t = 0, value_parser = clap::value_parser!(u32).range(0..=2))]
    pub form: u32,
}

#[derive(Args)]
pub struct LimitOption {
    /// Give up on a text after this many seconds; 0 is never
    #[arg(long, value_name = "N", default_value_t = 60)]
    pub seconds: u64,
}

#[derive(Clone, Copy, PartialEq, Eq, ValueEnum)]
pub enum Target {
    /// Counts, then a line for every node
    Listing,
    /// The table's bytes, 4 for every node, most significant first
    Nodes,
    /// Basic TLSF, for tools that read no other
    Basic,
    /// One line of LTL
    Ltl,
    /// Counts, signals and nodes, one line
    Json,
    /// A command line of Spot's ltlsynt: formula, inputs and outputs
    Ltlsynt,
    /// A command line of Strix: formula, inputs and outputs
    Strix,
    /// BoSy's input (JSON)
    Bosy,
    /// A module of NuSMV with the formula as LTLSPEC
    Smv,
}

impl Target {
    pub fn name(self) -> &'static str {
        match self {
            Target::Listing => "listing",
            Target::Nodes => "nodes",
            Target::Basic => "basic",
            Target::Ltl => "ltl",
            Target::Json => "json",
            Target::Ltlsynt => "ltlsynt",
            Target::Strix => "strix",
            Target::Bosy => "bosy",
            Target::Smv => "smv",
        }
    }

    /// What the names of its files end in.
    pub fn ending(self) -> &'static str {
        match self {
            Target::Bosy => "bosy.json",
            target => target.name(),
        }
    }

    /// Whether several results can stand on standard output, a line each.
    pub fn is_line(self) -> bool {
        matches!(self, Target::Ltl | Target::Ltlsynt | Target::Strix)
    }

    /// Whether one result ends where the next begins.
    pub fn needs_files(self) -> bool {
        matches!(self, Target::Nodes | Target::Basic | Target::Bosy | Target::Smv)
    }
}

#[derive(Clone, Copy, PartialEq, Eq, ValueEnum)]
pub enum Syntax {
    /// Spot, Owl and SPIN: true false ! && || -> <-> X U, the others written out with U
    Common,
    /// Spot and Owl: G F R W as well
    Spot,
    /// SPIN and Spot: [] <> V as well, W written out
    Spin,
    /// NuSMV, for --to smv
    #[value(skip)]
    Smv,
}

#[derive(Clone, Copy, PartialEq, Eq, ValueEnum)]
pub enum Messages {
    /// The line with a caret, the rule and how to mend it
    Full,
    /// One line
    Short,
}

fn plain_name(text: &str) -> Result<String, String> {
    let plain = text
        .bytes()
        .all(|byte| byte.is_ascii_lowercase() || byte.is_ascii_digit() || byte == b'_');
    if plain && text.as_bytes().first().is_some_and(u8::is_ascii_lowercase) {
        Ok(text.to_string())
    } else {
        Err("a name of lower case letters, digits and _".to_string())
    }
}

fn loop_start(text: &str) -> Result<LoopStart, String> {
    match text.parse() {
        Ok(position) => Ok(LoopStart::At(position)),
        Err(_) if text == "last" => Ok(LoopStart::Last),
        Err(_) => Err("a position from 0, or `last`".to_string()),
    }
}

fn positions(text: &str) -> Result<(usize, usize), String> {
    let ends = text
        .split_once("..")
        .and_then(|(first, last)| Some((first.parse().ok()?, last.parse().ok()?)));
    ends.filter(|(first, last)| first <= last)
        .ok_or_else(|| "two positions, as 20..80".to_string())
}

fn setting(text: &str) -> Result<(String, u32), String> {
    let setting = text
        .split_once('=')
        .and_then(|(name, value)| Some((name.trim().to_string(), value.trim().parse().ok()?)));
    setting
        .filter(|(name, value)| !name.is_empty() && *value <= 1_000_000)
        .ok_or_else(|| "a parameter and a number up to 1,000,000, as n=4".to_string())
}
