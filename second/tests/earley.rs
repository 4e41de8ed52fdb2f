//! The place of refusal 4, checked against a general recognizer: the grammar is written out level
//! by level, and the first token that leaves no item is the first that no accepted text continues.

use second::answer::Answer;
use second::generate;
use second::generate::prng::Prng;
use second::parser;
use second::token::{self, Kind};
use std::collections::{BTreeMap, BTreeSet, HashSet};

type Symbol = String;

#[derive(Default)]
struct Grammar {
    rules: BTreeMap<Symbol, Vec<Vec<Symbol>>>,
}

impl Grammar {
    fn add(&mut self, left: &str, right: &str) {
        let right = right.split_whitespace().map(str::to_string).collect();
        self.rules.entry(left.to_string()).or_default().push(right);
    }

    fn add_each(&mut self, left: &str, rights: &[&str]) {
        for right in rights {
            self.add(left, right);
        }
    }

    /// Lines with `;` between, the last may be missing.
    fn add_list(&mut self, list: &str, item: &str) {
        let some = format!("{list}+");
        self.add_each(list, &["", &some, &format!("{some} ;")]);
        self.add_each(&some, &[item, &format!("{some} ; {item}")]);
    }
}

fn grammar() -> Grammar {
    let mut grammar = Grammar::default();
    sections(&mut grammar);
    main_section(&mut grammar);
    tight_levels(&mut grammar);
    loose_levels(&mut grammar);
    grammar
}

fn sections(grammar: &mut Grammar) {
    grammar.add("<text>", "INFO { <info> } <global> MAIN { <main:0>");
    grammar.add(
        "<info>",
        "TITLE : $string DESCRIPTION : $string SEMANTICS : <model> <strict> TARGET : <model> <tags>",
    );
    grammar.add_each("<model>", &["Mealy", "Moore"]);
    grammar.add_each("<strict>", &["", ", Strict"]);
    grammar.add_each("<tags>", &["", "TAGS : <tag+>"]);
    grammar.add_each("<tag+>", &["<tag>", "<tag+> , <tag>"]);
    grammar.add_each("<tag>", &["$name", "$string"]);
    grammar.add_each("<global>", &["", "GLOBAL { <parameters> <definitions> }"]);
    grammar.add_each("<parameters>", &["", "PARAMETERS { <bindings> }"]);
    grammar.add_each("<definitions>", &["", "DEFINITIONS { <defined> }"]);
    grammar.add_list("<bindings>", "$name = <17>");
    grammar.add_list("<defined>", "<definition>");
    grammar.add_each(
        "<definition>",
        &["$name = <17>", "enum $name = <identifier+>"],
    );
    grammar.add_each(
        "<identifier+>",
        &["<identifier>", "<identifier+> <identifier>"],
    );
    grammar.add("<identifier>", "$name : <word+>");
    grammar.add_each("<word+>", &["$marks", "<word+> , $marks"]);
    grammar.add_list("<signals>", "<signal>");
    grammar.add_each("<signal>", &["$name", "$name [ <17> ]", "$name $name"]);
    grammar.add_list("<lines>", "<17>");
}

/// One nonterminal for each set of subsections seen.
fn main_section(grammar: &mut Grammar) {
    let names: [&[&str]; 8] = [
        &["INPUTS"],
        &["OUTPUTS"],
        &["INITIALLY"],
        &["PRESET"],
        &["REQUIRE"],
        &["ASSERT", "INVARIANTS"],
        &["ASSUME", "ASSUMPTIONS"],
        &["GUARANTEE", "GUARANTEES"],
    ];
    for seen in 0..256usize {
        let left = format!("<main:{seen}>");
        for (bit, words) in names.iter().enumerate() {
            if seen >> bit & 1 == 0 {
                let body = if bit < 2 { "<signals>" } else { "<lines>" };
                let next = seen | 1 << bit;
                for word in *words {
                    grammar.add(&left, &format!("{word} {{ {body} }} <main:{next}>"));
                }
            }
        }
        if seen & 3 == 3 {
            grammar.add(&left, "}");
        }
    }
}

fn binary(grammar: &mut Grammar, level: u32, right_to_left: bool, signs: &[&str]) {
    let own = format!("<{level}>");
    let tighter = format!("<{}>", level - 1);
    grammar.add(&own, &tighter);
    for sign in signs {
        let right = if right_to_left {
            format!("{tighter} {sign} {own}")
        } else {
            format!("{own} {sign} {tighter}")
        };
        grammar.add(&own, &right);
    }
}

fn big(grammar: &mut Grammar, level: u32, signs: &[&str]) {
    for sign in signs {
        let right = format!("{sign} [ <binder+> ] <{level}>");
        grammar.add(&format!("<{level}>"), &right);
    }
}

fn tight_levels(grammar: &mut Grammar) {
    grammar.add_each(
        "<0>",
        &[
            "$name",
            "$name [ <17> ]",
            "$numeral",
            "true",
            "false",
            "( <17> )",
            "| <17> |",
            "{ }",
            "{ <element+> }",
            "{ <17> , <17> .. <17> }",
        ],
    );
    grammar.add_each("<element+>", &["<17>", "<element+> , <17>"]);
    grammar.add_each("<binder+>", &["<binder>", "<binder+> , <binder>"]);
    grammar.add_each(
        "<binder>",
        &["$name <in> <17>", "<8> <sign> $name <sign> <8>"],
    );
    grammar.add_each("<in>", &["IN", "ELEM", "<-"]);
    grammar.add_each("<sign>", &["<", "LE", "<=", "LEQ"]);
    grammar.add_each(
        "<1>",
        &["<0>", "SIZE <1>", "MIN <1>", "MAX <1>", "SIZEOF <1>"],
    );
    big(grammar, 1, &["+", "SUM", "*", "PROD"]);
    binary(grammar, 2, false, &["*", "MUL"]);
    binary(grammar, 3, true, &["/", "DIV", "%", "MOD"]);
    binary(grammar, 4, false, &["+", "PLUS", "-", "MINUS"]);
    grammar.add("<5>", "<4>");
    big(grammar, 5, &["(*)", "CAP", "(+)", "CUP"]);
    binary(grammar, 6, true, &["(\\)", "(-)", "SETMINUS"]);
    binary(grammar, 7, false, &["(*)", "CAP"]);
    binary(grammar, 8, false, &["(+)", "CUP"]);
}

fn loose_levels(grammar: &mut Grammar) {
    let comparisons = [
        "==", "EQ", "!=", "/=", "NEQ", "<", "LE", "<=", "LEQ", ">", "GE", ">=", "GEG", "GEQ",
    ];
    binary(grammar, 9, false, &comparisons);
    binary(grammar, 10, false, &["IN", "ELEM", "<-"]);
    grammar.add_each(
        "<11>",
        &[
            "<10>",
            "! <11>",
            "NOT <11>",
            "X <11>",
            "X [ <17> ] <11>",
            "F <11>",
            "F [ <17> : <17> ] <11>",
            "G <11>",
            "G [ <17> : <17> ] <11>",
        ],
    );
    big(grammar, 11, &["&&", "AND", "FORALL", "||", "OR", "EXISTS"]);
    binary(grammar, 12, false, &["&&", "AND"]);
    binary(grammar, 13, false, &["||", "OR"]);
    binary(grammar, 14, true, &["->", "IMPLIES", "<->", "EQUIV"]);
    binary(grammar, 15, true, &["W"]);
    binary(grammar, 16, true, &["U"]);
    binary(grammar, 17, false, &["R"]);
}

/// A rule with what has been read of it, and the token where it began.
type Item<'g> = (&'g str, usize, usize, usize);

struct Recognizer<'g> {
    grammar: &'g Grammar,
    nullable: BTreeSet<&'g str>,
    sets: Vec<Vec<Item<'g>>>,
}

impl<'g> Recognizer<'g> {
    fn new(grammar: &'g Grammar) -> Self {
        let mut nullable = BTreeSet::new();
        loop {
            let before = nullable.len();
            for (left, rights) in &grammar.rules {
                if rights
                    .iter()
                    .any(|right| right.iter().all(|s| nullable.contains(s.as_str())))
                {
                    nullable.insert(left.as_str());
                }
            }
            if nullable.len() == before {
                break;
            }
        }
        Recognizer {
            grammar,
            nullable,
            sets: Vec::new(),
        }
    }

    fn right(&self, item: &Item<'g>) -> &'g [Symbol] {
        &self.grammar.rules[item.0][item.1]
    }

    /// Closes a set of items under prediction and completion.
    fn close(&mut self, start: Vec<Item<'g>>) {
        let number = self.sets.len();
        let mut seen: HashSet<Item<'g>> = start.iter().copied().collect();
        let mut items = start;
        let mut at = 0;
        while at < items.len() {
            let item = items[at];
            at += 1;
            let mut found = Vec::new();
            match self.right(&item).get(item.2) {
                Some(symbol) => {
                    if let Some((left, rights)) = self.grammar.rules.get_key_value(symbol) {
                        let all = (0..rights.len()).map(|rule| (left.as_str(), rule, 0, number));
                        found.extend(all);
                        if self.nullable.contains(symbol.as_str()) {
                            found.push((item.0, item.1, item.2 + 1, item.3));
                        }
                    }
                }
                None => {
                    let waiting = if item.3 == number {
                        &items
                    } else {
                        &self.sets[item.3]
                    };
                    for other in waiting {
                        if self.right(other).get(other.2).map(String::as_str) == Some(item.0) {
                            found.push((other.0, other.1, other.2 + 1, other.3));
                        }
                    }
                }
            }
            for item in found {
                if seen.insert(item) {
                    items.push(item);
                }
            }
        }
        self.sets.push(items);
    }

    /// The first token that no accepted text continues, or the number of tokens if the end is
    /// missing, or none if the tokens are accepted.
    fn first_wrong(&mut self, tokens: &[Symbol]) -> Option<usize> {
        self.sets.clear();
        let rules = self.grammar.rules["<text>"].len();
        self.close((0..rules).map(|rule| ("<text>", rule, 0, 0)).collect());
        for (number, token) in tokens.iter().enumerate() {
            let moved: Vec<Item<'g>> = self.sets[number]
                .iter()
                .filter(|item| self.right(item).get(item.2) == Some(token))
                .map(|item| (item.0, item.1, item.2 + 1, item.3))
                .collect();
            if moved.is_empty() {
                return Some(number);
            }
            self.close(moved);
        }
        let last = self.sets.last().expect("the first set");
        let done =
            |item: &Item<'g>| item.0 == "<text>" && item.3 == 0 && item.2 == self.right(item).len();
        if last.iter().any(done) {
            return None;
        }
        Some(tokens.len())
    }
}

fn symbol(kind: Kind) -> Symbol {
    match kind {
        Kind::Name => "$name".to_string(),
        Kind::Numeral => "$numeral".to_string(),
        Kind::Marks => "$marks".to_string(),
        Kind::Quoted => "$string".to_string(),
        Kind::Fixed(sign) => sign.to_string(),
    }
}

#[test]
fn places_of_refusal_4() {
    let grammar = grammar();
    let mut recognizer = Recognizer::new(&grammar);
    let mut rng = Prng::new(11);
    let (mut refused, mut accepted) = (0, 0);
    for _ in 0..2500 {
        let text = generate::short_text(&mut rng, 400);
        let Ok(tokens) = token::tokens(&text) else {
            continue;
        };
        let symbols: Vec<Symbol> = tokens.iter().map(|token| symbol(token.kind)).collect();
        let wrong = recognizer.first_wrong(&symbols);
        let place = wrong.map(|at| tokens.get(at).map_or(text.len(), |token| token.start));
        let parsed = parser::parse(&text, tokens).err();
        let found = parsed.map(|refusal| refusal.place);
        assert_eq!(place, found, "{}", String::from_utf8_lossy(&text));
        if let Some(place) = found {
            refused += 1;
            assert_eq!(answer_of(&text), Answer::refused(4, place));
        } else {
            accepted += 1;
        }
    }
    assert!(refused > 600 && accepted > 600, "{refused} {accepted}");
}

fn answer_of(text: &[u8]) -> Answer {
    second::reader::read_freely(text).answer
}
