//! The words after a command: SEED COUNT [--from INDEX] [--threads NUMBER], or --self-test.

pub struct Arguments {
    pub seed: u64,
    pub count: u64,
    /// The first case's number; with COUNT 1 a case is seen by itself.
    pub from: u64,
    pub threads: usize,
}

pub enum Wanted {
    Run(Arguments),
    SelfTest,
}

const THREADS: &str = "COMPARE_THREADS";

/// What the words ask for, or how to use the command.
pub fn parse(command: &str, words: &[String]) -> Result<Wanted, String> {
    let usage = || {
        format!("usage: {command} SEED COUNT [--from INDEX] [--threads NUMBER (or {THREADS})]\n       {command} --self-test")
    };
    if words == ["--self-test"] {
        return Ok(Wanted::SelfTest);
    }
    let number = |word: Option<&String>| {
        word.and_then(|word| word.parse::<u64>().ok())
            .ok_or_else(usage)
    };
    let threads = std::env::var(THREADS).ok();
    let mut arguments = Arguments {
        seed: number(words.first())?,
        count: number(words.get(1))?,
        from: 0,
        threads: threads.and_then(|word| word.parse().ok()).unwrap_or(1),
    };
    for pair in words[2..].chunks(2) {
        match pair[0].as_str() {
            "--from" => arguments.from = number(pair.get(1))?,
            "--threads" => arguments.threads = number(pair.get(1))?.max(1) as usize,
            _ => return Err(usage()),
        }
    }
    Ok(Wanted::Run(arguments))
}
