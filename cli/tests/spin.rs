//! The `ltl` output read by SPIN: its verdicts on generated lassos beside those of `judge`.
//!
//! SPIN as Debian builds it has no X, so the model has a tick that changes at every position, and the line is written with it.

mod common;

use common::texts::{nested_text, operator_text, small_text, SMALL_SIGNALS};
use common::Folder;
use second::generate::prng::Prng;
use second::generate::recordings;
use second::recording::Lasso;
use std::fmt::Write;
use std::os::unix::process::ExitStatusExt;
use std::path::Path;
use std::process::Command;

const LASSOS: usize = 8;
/// In turn in each form and each syntax: texts of one temporal operator, and of any.
const PLAIN_PER_LASSO: usize = 6;
const TEXTS_PER_LASSO: usize = 12;
/// In turn in each syntax: formulas that a reader of SPIN's precedences takes for others where their parentheses are missing.
const NESTED_PER_LASSO: usize = 12;
const NESTED: [&str; 16] = [
    "! (x U y)",
    "! (x R y)",
    "! (x W y)",
    "! (F x)",
    "z U (x R y)",
    "z R (x U y)",
    "(x R y) U z",
    "z U (x U y)",
    "(G x) R y",
    "(x -> y) && z",
    "(x <-> y) && z",
    "(x || y) && z",
    "(x -> y) || z",
    "(x <-> y) || z",
    "(x -> y) -> z",
    "(! x) U y",
];
const WAYS: [(&str, &str); 6] = [
    ("0", "common"),
    ("1", "common"),
    ("2", "common"),
    ("0", "spin"),
    ("1", "spin"),
    ("2", "spin"),
];
/// Of each temporal operator so many at least stand in the texts that are compared.
const LEAST: usize = 15;
const TEMPORAL: [&str; 6] = ["X", "G", "F", "U", "R", "W"];
/// What `b[0]`, `b[1]` and `b_1` are called in a line.
const LTL_NAMES: [&str; 4] = ["a", "b_0", "b_1_2", "b_1"];
/// SPIN's automata grow exponentially with a line's temporal operators: lines that have more, that are longer, or that take it more than a second of a
/// processor are passed over.
const MOST_TEMPORAL: usize = 7;
const LONGEST_LINE: usize = 220;

/// One transition for every position; the signals are set with it.
fn model(lasso: &Lasso, claims: &[&str]) -> String {
    let (mut declared, mut set) = (String::new(), String::new());
    for (number, name) in LTL_NAMES.iter().enumerate() {
        let _ = writeln!(declared, "bool {name} = {};", u8::from(lasso.present(0, number)));
        let _ = write!(set, "; {name} = (false");
        for position in (0..lasso.positions()).filter(|&position| lasso.present(position, number)) {
            let _ = write!(set, " || at == {position}");
        }
        set.push(')');
    }
    let (last, start) = (lasso.positions() - 1, lasso.loop_start);
    let mut model = format!(
        "short at = 0;\nbool tick = 0;\n{declared}active proctype lasso() {{ do :: d_step {{ at = (at == {last} -> {start} : at + 1); tick = !tick{set} }} od }}\n"
    );
    for (number, claim) in claims.iter().enumerate() {
        let _ = writeln!(model, "ltl c{number} {{ {claim} }}");
    }
    model
}

fn succeed(folder: &Path, program: &str, arguments: &[&str]) -> String {
    let output = Command::new(program)
        .current_dir(folder)
        .args(arguments)
        .output()
        .unwrap_or_else(|error| panic!("{program}: {error}"));
    let out = String::from_utf8_lossy(&output.stdout).into_owned();
    assert!(
        output.status.success(),
        "{program} {arguments:?}: {out}{}",
        String::from_utf8_lossy(&output.stderr)
    );
    out
}

/// Whether SPIN reads the line and makes the claim's automaton within a second of a processor.
fn is_quick(folder: &Folder, lasso: &Lasso, line: &str) -> bool {
    folder.file("one.pml", model(lasso, &[line]));
    let output = Command::new("sh")
        .current_dir(&folder.path)
        .args(["-c", "ulimit -t 1; exec spin -a one.pml"])
        .output();
    let output = output.unwrap_or_else(|error| panic!("sh: {error}"));
    assert!(
        output.status.success() || output.status.signal().is_some(),
        "{line}: {}",
        String::from_utf8_lossy(&output.stdout)
    );
    output.status.success()
}

fn spin_holds(folder: &Path, claim: usize) -> bool {
    let out = succeed(
        folder,
        "timeout",
        &["600", "./pan", "-a", "-m10000", "-w12", "-N", &format!("c{claim}")],
    );
    assert!(!out.contains("search depth too small"), "{out}");
    let errors = out.split("errors: ").nth(1).and_then(|rest| rest.split_whitespace().next());
    match errors {
        Some("0") => true,
        Some(_) => false,
        None => panic!("no verdict: {out}"),
    }
}

/// Words of SPIN's models and of C, operators of all three, and other names that a maker may well choose.
const AWKWARD: &str = "active assert atomic bit bool break byte chan do else empty enabled eval fi for full goto hidden if in init inline int \
    len local ltl mtype never nfull od of pid printf priority proctype provided return run select short show skip timeout trace typedef unless \
    unsigned xr xs np_ d_step c_code always eventually until weakuntil release next implies equivalent and or not xor tt ff \
    asm auto case char const continue default double extern float long register restrict signed sizeof static struct switch typeof union void \
    volatile while unix linux rand uchar ushort uint ulong now step depth state min max main exit error start stop open close lock A Xa U1 Ga V _ _pid a' a@";

#[test]
fn awkward_names_are_read() {
    let folder = Folder::new();
    let declared: Vec<&str> = AWKWARD.split_whitespace().collect();
    let list: String = declared.iter().map(|name| format!("{name}; ")).collect();
    let all = declared.join(" || ");
    folder.file(
        "t.tlsf",
        format!("INFO {{ TITLE: \"t\" DESCRIPTION: \"d\" SEMANTICS: Mealy TARGET: Mealy }} MAIN {{ INPUTS {{ {list}}} OUTPUTS {{ }} GUARANTEE {{ G F ({all}); }} }}"),
    );
    let ran = folder.run(&["convert", "--to", "ltl", "--syntax", "spin", "t.tlsf"]);
    assert_eq!(ran.status, 0, "{}", ran.told);
    let names: Vec<&str> = ran
        .told
        .lines()
        .filter(|line| !line.starts_with('#'))
        .filter_map(|line| line.rsplit(' ').next())
        .collect();
    assert_eq!(names.len(), declared.len());
    let variables: String = names.iter().map(|name| format!("bool {name} = 1;\n")).collect();
    let set: String = names.iter().map(|name| format!("; {name} = !{name}")).collect();
    let line = ran.text();
    // The automaton of a claim over all of them would take long: the claim is read, and the program has every name.
    folder.file(
        "t.pml",
        format!("{variables}active proctype lasso() {{ do :: d_step {{ skip{set} }} od }}\nltl c {{ {line} }}\n"),
    );
    succeed(&folder.path, "timeout", &["60", "spin", "-a", "t.pml"]);
    succeed(&folder.path, "gcc", &["-w", "-fsyntax-only", "pan.c"]);
}

/// A line that SPIN is asked of, and what `judge` says of its text.
struct Claim {
    text: String,
    line: String,
    holds: bool,
}

/// A line written in a way of `WAYS` that SPIN reads in its time.
fn claim(folder: &Folder, lasso: &Lasso, (form, syntax): (&str, &str), mut text: impl FnMut() -> String) -> Claim {
    loop {
        let text = text();
        let options = ["convert", "--to", "ltl", "--form", form, "--syntax", syntax, "--tick", "tick"];
        let line = folder.run_with_input(&options, text.as_bytes()).text().trim_end().to_string();
        let temporal: usize = [" U ", " V ", "[] ", "<> "].iter().map(|sign| line.matches(sign).count()).sum();
        if temporal > MOST_TEMPORAL || line.len() > LONGEST_LINE || !is_quick(folder, lasso, &line) {
            continue;
        }
        let judged = folder.run_with_input(&["judge", "--form", form, "-", "run"], text.as_bytes());
        assert!(judged.status < 2, "{}", judged.told);
        return Claim {
            text,
            line,
            holds: judged.status == 0,
        };
    }
}

/// The claims on one lasso; over some lassos every operator stands alone in every way.
fn claims(rng: &mut Prng, folder: &Folder, lasso: &Lasso, number: usize) -> Vec<Claim> {
    let ways = || WAYS.into_iter().cycle().enumerate();
    let operator = |at: usize| TEMPORAL[(at + number) % TEMPORAL.len()];
    let mut claims: Vec<Claim> = Vec::new();
    for (at, way) in ways().take(PLAIN_PER_LASSO) {
        claims.push(claim(folder, lasso, way, || operator_text(rng, operator(at))));
    }
    for at in 0..NESTED_PER_LASSO {
        let formula = NESTED[(at + number * NESTED_PER_LASSO) / 2 % NESTED.len()];
        let way = ("0", ["common", "spin"][at % 2]);
        claims.push(claim(folder, lasso, way, || nested_text(rng, formula)));
    }
    for (_, way) in ways().take(TEXTS_PER_LASSO) {
        let levels = rng.between(1, 3);
        claims.push(claim(folder, lasso, way, || small_text(rng, levels)));
    }
    claims
}

#[test]
fn verdicts_equal_those_of_judge() {
    let mut rng = Prng::new(2_026);
    let mut all = Vec::new();
    for number in 0..LASSOS {
        let folder = Folder::new();
        let lasso = recordings::lasso(&mut rng, 6, SMALL_SIGNALS.len());
        folder.file("run", lasso.bytes(SMALL_SIGNALS.len()));
        let asked = claims(&mut rng, &folder, &lasso, number);
        let lines: Vec<&str> = asked.iter().map(|claim| claim.line.as_str()).collect();
        folder.file("model.pml", model(&lasso, &lines));
        succeed(&folder.path, "timeout", &["600", "spin", "-a", "model.pml"]);
        succeed(&folder.path, "gcc", &["-w", "-O0", "-DNOREDUCE", "-o", "pan", "pan.c"]);
        for (number, claim) in asked.iter().enumerate() {
            assert_eq!(spin_holds(&folder.path, number), claim.holds, "{} on {lasso:?}", claim.line);
        }
        all.extend(asked);
    }
    let held = all.iter().filter(|claim| claim.holds).count();
    let count = |operator: &&str| {
        let signs = [format!("({operator} "), format!(" {operator} ")];
        let of_text = |claim: &Claim| signs.iter().map(|sign| claim.text.matches(sign).count()).sum::<usize>();
        all.iter().map(of_text).sum()
    };
    let counts: Vec<usize> = TEMPORAL.iter().map(count).collect();
    println!(
        "SPIN agrees with judge on {} verdicts: {held} hold, {} fail; X, G, F, U, R, W {counts:?} times",
        all.len(),
        all.len() - held
    );
    assert!(held > all.len() / 5 && held < all.len() * 4 / 5);
    assert!(counts.iter().all(|count| *count >= LEAST));
}
