//! The `ltl` output read by the grammar that Spot, Owl and SPIN share whatever their precedences: no two operators meet without parentheses, but for a
//! chain of `&&` or of `||`. Read so, every line is the formula of the second converter's table, its derived operators written out as the README has them.

mod common;

use common::{labels, texts, Folder};
use second::converter::convert;
use second::generate::prng::Prng;
use second::generate::sound_text;
use second::limits;
use second::node::Node;
use second::reader::{self, Reading};
use serde_json::{json, Value};
use std::collections::HashSet;

const TEXTS: usize = 300;
const FORMS: [u32; 3] = [0, 1, 2];
/// Of each operator that a form may have, so many at least are read in each syntax.
const LEAST: usize = 30;
const TICK: &str = "tick";
/// Larger texts and longer lines show nothing that smaller ones do not.
const MOST_NODES: usize = 400;
const LONGEST_LINE: usize = 60_000;

struct Grammar {
    syntax: &'static str,
    tick: bool,
    unary: &'static [&'static str],
    binary: &'static [&'static str],
}

const GRAMMARS: [Grammar; 4] = [
    Grammar {
        syntax: "common",
        tick: false,
        unary: &["!", "X"],
        binary: &["&&", "||", "->", "<->", "U"],
    },
    Grammar {
        syntax: "spot",
        tick: false,
        unary: &["!", "X", "G", "F"],
        binary: &["&&", "||", "->", "<->", "U", "R", "W"],
    },
    Grammar {
        syntax: "spin",
        tick: false,
        unary: &["!", "X", "[]", "<>"],
        binary: &["&&", "||", "->", "<->", "U", "V"],
    },
    Grammar {
        syntax: "spin",
        tick: true,
        unary: &["!", "[]", "<>"],
        binary: &["&&", "||", "->", "<->", "U", "V"],
    },
];

/// NuSMV's, with its `&`, `|`, TRUE and FALSE as the others spell them.
const SMV: Grammar = Grammar {
    syntax: "smv",
    tick: false,
    unary: &["!", "X", "G", "F"],
    binary: &["&&", "||", "->", "<->", "U", "V"],
};

/// Names, signs and parentheses; a sign is as long as it can be.
fn tokens(line: &str) -> Vec<&str> {
    const SIGNS: [&str; 9] = ["<->", "&&", "||", "->", "[]", "<>", "!", "(", ")"];
    let mut tokens = Vec::new();
    let mut rest = line;
    while let Some(first) = rest.chars().next() {
        let of_name = |c: char| c.is_ascii_alphanumeric() || c == '_';
        let length = match SIGNS.iter().find(|sign| rest.starts_with(**sign)) {
            Some(sign) => sign.len(),
            None if first == ' ' => 1,
            None => rest.find(|c| !of_name(c)).unwrap_or(rest.len()),
        };
        assert!(length > 0, "no token begins with {rest:?}");
        if first != ' ' {
            tokens.push(&rest[..length]);
        }
        rest = &rest[length..];
    }
    tokens
}

/// Reads a line, and writes each operator in its own parentheses.
struct Reader<'a> {
    tokens: &'a [&'a str],
    grammar: &'a Grammar,
    names: &'a [&'a str],
}

impl<'a> Reader<'a> {
    fn next(&mut self) -> &'a str {
        let (first, rest) = self.tokens.split_first().expect("a token");
        self.tokens = rest;
        first
    }

    fn operand(&mut self) -> String {
        match self.next() {
            "(" => {
                let inner = self.line();
                assert_eq!(self.next(), ")");
                inner
            }
            sign if self.grammar.unary.contains(&sign) => format!("({sign} {})", self.operand()),
            name => {
                let known = self.names.contains(&name) || ["true", "false"].contains(&name) || self.grammar.tick && name == TICK;
                assert!(known, "{name} is no name");
                name.to_string()
            }
        }
    }

    fn line(&mut self) -> String {
        let mut line = self.operand();
        let sign = match self.tokens.first() {
            Some(&sign) if self.grammar.binary.contains(&sign) => sign,
            _ => return line,
        };
        loop {
            self.next();
            line = format!("({line} {sign} {})", self.operand());
            if self.tokens.first() != Some(&sign) || !["&&", "||"].contains(&sign) {
                return line;
            }
        }
    }
}

const KINDS: [&str; 14] = [
    "true", "false", "signal", "!", "&&", "||", "->", "<->", "X", "G", "F", "U", "R", "W",
];
const FORBIDDEN: [&[&str]; 3] = [&[], &["->", "<->"], &["false", "&&", "->", "<->", "G", "F", "R", "W"]];

fn kind(node: Node) -> &'static str {
    KINDS[node.kind() as usize]
}

/// The formula of a node, each operator in its own parentheses.
fn formula(nodes: &[u32], at: usize, names: &[&str], grammar: &Grammar) -> String {
    let node = Node(nodes[at]);
    let a = || formula(nodes, node.first(), names, grammar);
    let b = || formula(nodes, node.second(), names, grammar);
    match (kind(node), grammar.syntax) {
        ("signal", _) => names[node.first()].to_string(),
        (constant @ ("true" | "false"), _) => constant.to_string(),
        ("X", _) if grammar.tick => {
            let a = a();
            let changed = |from: &str, to: &str| format!("({from} && ({from} U ({to} && {a})))");
            let (high, low) = (TICK.to_string(), format!("(! {TICK})"));
            format!("({} || {})", changed(&high, &low), changed(&low, &high))
        }
        (sign @ ("!" | "X"), _) | (sign @ ("G" | "F"), "spot") => format!("({sign} {})", a()),
        ("G", "common") => format!("(! (true U (! {})))", a()),
        ("F", "common") => format!("(true U {})", a()),
        (sign @ ("G" | "F"), "smv") => format!("({sign} {})", a()),
        ("R", "smv") => format!("({} V {})", a(), b()),
        ("W", "smv") => format!("(({0} U {1}) || (G {0}))", a(), b()),
        ("G", _) => format!("([] {})", a()),
        ("F", _) => format!("(<> {})", a()),
        ("R", "common") => format!("(! ((! {}) U (! {})))", a(), b()),
        ("R", "spin") => format!("({} V {})", a(), b()),
        ("W", "common") => format!("(({0} U {1}) || (! (true U (! {0}))))", a(), b()),
        ("W", "spin") => format!("(({0} U {1}) || ([] {0}))", a(), b()),
        (sign, _) => format!("({} {sign} {})", a(), b()),
    }
}

/// What all three take for a name: a small letter first, and no word of theirs.
fn is_readable(name: &str) -> bool {
    name.starts_with(|c: char| c.is_ascii_lowercase())
        && !["true", "false", "always", "until", "or", "and", "not", "tt", "ff"].contains(&name)
}

/// The names of a line, each once, beside number, direction and the text's own name of the same signal.
fn names<'a>(list: &'a str, text: &[u8], signals: &[u32]) -> Vec<&'a str> {
    let mut names = Vec::new();
    let lines = || list.lines().filter(|line| !line.starts_with('#'));
    for (number, (line, label)) in lines().zip(labels(text, signals)).enumerate() {
        let fields: Vec<&str> = line.split(' ').collect();
        let direction = if signals[number] >> 31 == 1 { "output" } else { "input" };
        assert_eq!(fields[..3], [&number.to_string(), direction, &label]);
        let like = label.replace(['\'', '@', '['], "_").replace(']', "");
        assert!(
            is_readable(fields[3]) && fields[3].trim_start_matches("p_").starts_with(like.trim_start_matches("p_")),
            "{line}"
        );
        names.push(fields[3]);
    }
    assert_eq!((lines().count(), names.len()), (signals.len(), signals.len()));
    assert_eq!(names.iter().collect::<HashSet<_>>().len(), names.len(), "{list}");
    names
}

fn is_small(text: &[u8]) -> bool {
    reader::read_freely(text).nodes.len() <= MOST_NODES
}

/// The texts of one form with what the second converter makes of them.
struct Corpus {
    folder: Folder,
    form: u32,
    texts: Vec<Vec<u8>>,
    due: Vec<Reading>,
}

impl Corpus {
    fn new(form: u32) -> Corpus {
        let folder = Folder::in_memory();
        let mut rng = Prng::new(77 + u64::from(form));
        let text = |number| match number % 2 {
            0 => sound_text(&mut rng),
            _ => texts::small_text(&mut rng, 4).into_bytes(),
        };
        let texts: Vec<Vec<u8>> = (0..).map(text).filter(|text| is_small(text)).take(TEXTS).collect();
        for (number, text) in texts.iter().enumerate() {
            folder.file(&format!("{number}.tlsf"), text);
        }
        let freely = |text: &Vec<u8>| convert(text, form, limits::WORK_BYTES, limits::NODES, limits::SIGNALS);
        let due = texts.iter().map(freely).collect();
        Corpus { folder, form, texts, due }
    }

    fn convert(&self, options: &[&str]) -> String {
        let files: Vec<String> = (0..TEXTS).map(|number| format!("{number}.tlsf")).collect();
        let files: Vec<&str> = files.iter().map(String::as_str).collect();
        let form = self.form.to_string();
        let ran = self.folder.run(&[&["convert", "--form", &form], options, &files].concat());
        assert!(ran.status < 2, "{}", ran.told);
        ran.told
    }

    fn accepted(&self) -> impl Iterator<Item = (usize, &Reading)> {
        self.due.iter().enumerate().filter(|(_, due)| due.answer.is_accepted())
    }

    fn read(&self, file: String) -> String {
        String::from_utf8(self.folder.read(&file)).expect("UTF-8")
    }

    /// Whether a module's LTLSPEC, which is no longer than others that are read, is the formula over the variables that it declares.
    fn read_module(&self, number: usize, due: &Reading) -> bool {
        let module = self.read(format!("smv/{number}.smv"));
        let (head, line) = module.split_once("  LTLSPEC ").expect("a formula");
        if line.len() > LONGEST_LINE {
            return false;
        }
        let declared = head.lines().filter(|line| line.contains(" : boolean; -- "));
        let names: Vec<&str> = declared.filter_map(|line| line.trim_start().split(' ').next()).collect();
        assert_eq!(names.len(), due.signals.len(), "{head}");
        assert_eq!(names.iter().collect::<HashSet<_>>().len(), names.len(), "{head}");
        let spelt = line.trim_end().replace('&', "&&").replace('|', "||");
        let as_others = |token| match token {
            "TRUE" => "true",
            "FALSE" => "false",
            token => token,
        };
        let tokens: Vec<&str> = tokens(&spelt).into_iter().map(as_others).collect();
        let mut reader = Reader {
            tokens: &tokens,
            grammar: &SMV,
            names: &names,
        };
        assert_eq!(reader.line(), formula(&due.nodes, due.nodes.len() - 1, &names, &SMV), "{number}");
        assert!(reader.tokens.is_empty(), "{number}: {:?} is left", reader.tokens);
        true
    }

    /// How many lines are read, how long the longest is, and how many nodes of each kind they have.
    fn read_lines(&self, grammar: &Grammar) -> (usize, usize, [usize; 14]) {
        let tick: &[&str] = if grammar.tick { &["--tick", TICK] } else { &[] };
        let out = format!("{}{}", grammar.syntax, tick.concat());
        let told = self.convert(&[&["--to", "ltl", "--syntax", grammar.syntax, "--out", &out], tick].concat());
        let (mut read, mut longest, mut kinds) = (0, 0, [0; 14]);
        let is_given_up = |number: usize| told.contains(&format!("error: {number}.tlsf: the line is longer than 16 MiB"));
        for (number, due) in self.accepted().filter(|(number, _)| !is_given_up(*number)) {
            let line = self.read(format!("{out}/{number}.ltl"));
            let line = line.strip_suffix('\n').expect("a line feed at its end");
            let list = self.read(format!("{out}/{number}.names"));
            let names = names(&list, &self.texts[number], &due.signals);
            if line.len() > LONGEST_LINE {
                continue;
            }
            let tokens = tokens(line);
            let mut reader = Reader {
                tokens: &tokens,
                grammar,
                names: &names,
            };
            assert_eq!(reader.line(), formula(&due.nodes, due.nodes.len() - 1, &names, grammar), "{number}");
            assert!(reader.tokens.is_empty(), "{number}: {:?} is left", reader.tokens);
            read += 1;
            longest = longest.max(line.len());
            due.nodes.iter().for_each(|&node| kinds[Node(node).kind() as usize] += 1);
        }
        let written = self.accepted().filter(|(number, _)| !is_given_up(*number)).count();
        let results = self.folder.names(&out);
        assert_eq!(results.iter().filter(|name| !name.ends_with(".refused.txt")).count(), 2 * written);
        (read, longest, kinds)
    }
}

#[test]
fn every_line_is_read_as_the_formula() {
    let (mut read, mut longest) = (0, 0);
    for form in FORMS {
        let corpus = Corpus::new(form);
        for grammar in &GRAMMARS {
            let (lines, longest_line, kinds) = corpus.read_lines(grammar);
            read += lines;
            longest = longest.max(longest_line);
            for (kind, count) in KINDS.iter().zip(kinds) {
                let allowed = !FORBIDDEN[form as usize].contains(kind);
                assert!(if allowed { count >= LEAST } else { count == 0 }, "{kind}: {count} in form {form}");
            }
        }
    }
    println!("{read} lines of LTL, the longest of {longest} bytes, are read as their formulas");
    assert!(read > 9 * TEXTS);
}

/// The formula that each solver gets is the line of `--syntax spot`, with the names of its inputs and outputs; NuSMV's is read by its own grammar.
#[test]
fn solvers_get_the_formula() {
    let mut modules = 0;
    for form in FORMS {
        let corpus = Corpus::new(form);
        corpus.convert(&["--syntax", "spot", "--out", "spot"]);
        for target in ["ltlsynt", "strix", "bosy", "smv"] {
            corpus.convert(&["--to", target, "--out", target]);
        }
        for (number, due) in corpus.accepted() {
            let line = corpus.read(format!("spot/{number}.ltl"));
            let line = line.trim_end_matches('\n');
            let list = corpus.read(format!("spot/{number}.names"));
            let names = names(&list, &corpus.texts[number], &due.signals);
            let of = |output: bool| -> Vec<&str> {
                let all = names.iter().zip(&due.signals).filter(|(_, &entry)| (entry >> 31 == 1) == output);
                all.map(|(name, _)| *name).collect()
            };
            let (inputs, outputs) = (of(false), of(true));
            let ports = format!(" --ins='{}' --outs='{}' # target ", inputs.join(","), outputs.join(","));
            let ltlsynt = corpus.read(format!("ltlsynt/{number}.ltlsynt"));
            assert!(ltlsynt.starts_with(&format!("ltlsynt --formula='{line}'{ports}")), "{number}");
            let strix = corpus.read(format!("strix/{number}.strix"));
            assert!(strix.starts_with(&format!("strix -f '{line}'{ports}")), "{number}");
            let bosy: Value = serde_json::from_str(&corpus.read(format!("bosy/{number}.bosy.json"))).expect("JSON");
            assert_eq!((&bosy["guarantees"], &bosy["assumptions"]), (&json!([line]), &json!([])));
            assert_eq!((&bosy["inputs"], &bosy["outputs"]), (&json!(inputs), &json!(outputs)));
            modules += usize::from(corpus.read_module(number, due));
        }
    }
    println!("{modules} lines of LTL in modules of NuSMV are read as their formulas");
    assert!(modules > 2 * TEXTS);
}

#[test]
fn json_and_nodes_are_the_table() {
    for form in FORMS {
        let corpus = Corpus::new(form);
        corpus.convert(&["--to", "json", "--out", "json"]);
        corpus.convert(&["--to", "nodes", "--out", "nodes"]);
        for (number, due) in corpus.accepted() {
            let json: Value = serde_json::from_str(&corpus.read(format!("json/{number}.json"))).expect("JSON");
            let fields = |&node: &u32| json!([Node(node).kind(), Node(node).first(), Node(node).second()]);
            assert_eq!(json["nodes"], due.nodes.iter().map(fields).collect::<Value>(), "{number}");
            assert_eq!(json["counts"], json!({ "nodes": due.nodes.len(), "signals": due.signals.len() }));
            assert_eq!((&json["form"], &json["kinds"]), (&json!(form), &json!(KINDS)));
            let signals = json["signals"].as_array().expect("signals");
            let names: Vec<&str> = signals.iter().filter_map(|signal| signal["name"].as_str()).collect();
            assert_eq!(names, labels(&corpus.texts[number], &due.signals));
            let bytes: Vec<u8> = due.nodes.iter().flat_map(|node| node.to_be_bytes()).collect();
            assert_eq!(corpus.folder.read(&format!("nodes/{number}.nodes")), bytes, "{number}");
        }
    }
}
