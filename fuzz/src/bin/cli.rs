//! cli PROGRAM ROUNDS [SEED]: hostile texts, recordings and tables for the command line tool, in a folder, by every command. See `fuzz/cli`.

use fuzz::inputs;
use second::generate::{failing, prng::Prng};
use second::reader;
use std::fs;
use std::path::{Path, PathBuf};
use std::process::Command;

/// Texts of a round, all in one folder.
const TEXTS: usize = 60;
/// A text is given up after so many seconds.
const SECONDS: &str = "5";

/// What every command may answer; anything else, a panic among it, is a fault.
const STATUSES: [i32; 5] = [0, 1, 2, 3, 4];

const TARGETS: [&str; 9] = [
    "listing", "nodes", "basic", "ltl", "json", "ltlsynt", "strix", "bosy", "smv",
];

struct Tool {
    program: PathBuf,
    folder: PathBuf,
    calls: usize,
    /// Texts whose worker ended without a result.
    broken: usize,
}

impl Tool {
    fn run(&mut self, words: &[&str]) -> Result<(), String> {
        let output = Command::new(&self.program)
            .current_dir(&self.folder)
            .args(words)
            .stdin(std::process::Stdio::null())
            .output()
            .map_err(|error| error.to_string())?;
        self.calls += 1;
        let told = String::from_utf8_lossy(&output.stderr);
        self.broken += told.matches("ended without an answer").count();
        let status = output.status.code();
        let is_good = status.is_some_and(|status| STATUSES.contains(&status));
        let wild = |c: char| c.is_control() && c != '\n';
        let is_plain = !told.contains("panicked") && !told.contains(wild);
        match is_good && is_plain && self.broken == 0 {
            true => Ok(()),
            false => Err(format!("{words:?}: {}, {told}", output.status)),
        }
    }
}

/// A table with the text's names, mostly, and values of all kinds.
fn table(rng: &mut Prng, names: &[String]) -> Vec<u8> {
    let sign = *rng.pick(&[",", ";", "\t", ",", ",", " ", "|"]);
    let mut names: Vec<String> = names.to_vec();
    if rng.one_in(8) {
        names.push(rng.pick(&["time", "\"", "x\u{0}", "", "ä"]).to_string());
    }
    if rng.one_in(8) {
        names.pop();
    }
    let mut table = names.join(sign) + *rng.pick(&["\n", "\r\n", "\r", ",\n"]);
    let most = *rng.pick(&[2, 5, 40, 2_100]);
    for _ in 0..rng.below(most) {
        let value = |_| match rng.below(60) {
            0 => *rng.pick(&["", "2", "true", "FALSE", "1.0", "\"1", "x", "\u{feff}1"]),
            number => ["0", "1"][number % 2],
        };
        let values: Vec<&str> = (0..names.len()).map(value).collect();
        table += &(values.join(sign) + "\n");
    }
    let mut bytes = table.into_bytes();
    if rng.one_in(8) {
        second::generate::damage::damage_bytes(rng, &mut bytes);
    }
    if rng.one_in(20) {
        bytes = bytes.iter().flat_map(|byte| [*byte, 0]).collect();
        bytes.splice(0..0, [0xff, 0xfe]);
    }
    bytes
}

/// A dump with the text's names, and changes of all kinds.
fn dump(rng: &mut Prng, names: &[String]) -> Vec<u8> {
    let mut dump = "$timescale 1ns $end\n$scope module tb $end\n".to_string();
    for (number, name) in names.iter().enumerate() {
        dump += &format!("$var wire 1 s{number} {name} $end\n");
    }
    dump += "$var wire 1 c clk $end\n$upscope $end\n$enddefinitions $end\n";
    for time in 0..rng.below(40) {
        dump += &format!("#{time}\n{}c\n", time % 2);
        for number in 0..names.len() {
            let value = match rng.below(40) {
                0 => *rng.pick(&["x", "z", "b101 ", "r1.0 ", "$", ""]),
                value => ["0", "1"][value % 2],
            };
            dump += &format!("{value}s{number}\n");
        }
    }
    let mut bytes = dump.into_bytes();
    if rng.one_in(4) {
        second::generate::damage::damage_bytes(rng, &mut bytes);
    }
    bytes
}

/// The names of an accepted text's signals.
fn names(text: &[u8]) -> Vec<String> {
    let of_name = |byte: &&u8| byte.is_ascii_alphanumeric() || b"_'@".contains(byte);
    let name = |entry: &u32| {
        let rest = &text[(entry >> 16 & 0x7fff) as usize..];
        let bytes = rest.iter().take_while(of_name);
        let name: String = bytes.map(|&byte| char::from(byte)).collect();
        match entry & 0xff {
            0 => name,
            _ => format!("{name}[{}]", entry >> 8 & 0xff),
        }
    };
    let reading = reader::read_freely(text);
    reading.signals.iter().map(name).collect()
}

fn round(tool: &mut Tool, rng: &mut Prng) -> Result<(), String> {
    let kept = |error: std::io::Error| error.to_string();
    let _ = fs::remove_dir_all(&tool.folder);
    fs::create_dir_all(&tool.folder).map_err(kept)?;
    for number in 0..TEXTS {
        let text = match rng.one_in(3) {
            true => failing::text(rng),
            false => inputs::text(rng),
        };
        let reading = reader::read_freely(&text);
        let (signals, nodes) = (reading.signals.len(), reading.nodes.len());
        let names = names(&text);
        let files = [
            ("tlsf", text),
            ("rec", inputs::recording(rng, signals as u32, nodes)),
            ("csv", table(rng, &names)),
            ("vcd", dump(rng, &names)),
        ];
        for (ending, bytes) in files {
            fs::write(tool.folder.join(format!("{number:02}.{ending}")), bytes).map_err(kept)?;
        }
    }
    let limit = ["--seconds", SECONDS];
    for target in TARGETS {
        let form = ["0", "1", "2"][rng.below(3)];
        let form = if target == "basic" { "0" } else { form };
        let words = [
            "convert", ".", "--out", "out", "--to", target, "--form", form,
        ];
        let reports = ["--report", "day.json", "--report", "day.html"];
        tool.run(&[&words[..], &reports, &limit].concat())?;
    }
    tool.run(&["check", ".", "--messages", "full", limit[0], limit[1]])?;
    tool.run(&["reach", ".", limit[0], limit[1]])?;
    for number in 0..TEXTS {
        let [text, recording, table, dump] =
            ["tlsf", "rec", "csv", "vcd"].map(|ending| format!("{number:02}.{ending}"));
        tool.run(&["info", &text, limit[0], limit[1]])?;
        let judge = [
            "judge", &text, &recording, &table, "--loop", "last", limit[0], limit[1],
        ];
        tool.run(&judge)?;
        tool.run(&[
            "judge", &text, &recording, "--rows", "--svg", "run.svg", limit[0], limit[1],
        ])?;
        tool.run(&[
            "judge", &text, &dump, "--loop", "0", "--clock", "clk", limit[0], limit[1],
        ])?;
        tool.run(&["show", &recording])?;
    }
    Ok(())
}

fn main() {
    let words: Vec<String> = std::env::args().skip(1).collect();
    let (program, rounds, seed) = match &words[..] {
        [program, rounds] => (program, rounds, "1"),
        [program, rounds, seed] => (program, rounds, seed.as_str()),
        _ => {
            eprintln!("usage: cli PROGRAM ROUNDS [SEED]");
            std::process::exit(2);
        }
    };
    let mut rng = Prng::new(seed.parse().expect("SEED is a number"));
    let mut tool = Tool {
        program: Path::new(program)
            .canonicalize()
            .expect("the program is there"),
        folder: PathBuf::from("target/fuzz/cli"),
        calls: 0,
        broken: 0,
    };
    for number in 0..rounds.parse::<usize>().expect("ROUNDS is a number") {
        if let Err(fault) = round(&mut tool, &mut rng) {
            eprintln!(
                "fuzz/cli: round {number}, kept in {}: {fault}",
                tool.folder.display()
            );
            std::process::exit(1);
        }
    }
    println!(
        "fuzz/cli: {rounds} rounds of {TEXTS} texts, {} calls: no crash, no odd status",
        tool.calls
    );
}
