//! The messages of slips, as they are stored in messages.txt; and what each says to be expected, held to the second converter.

mod common;

use common::Folder;
use second::answer::Answer;
use second::generate::{self, prng::Prng};
use second::reader;
use std::fs;
use std::path::Path;
use std::process::Command;

const STORE: &str = concat!(env!("CARGO_MANIFEST_DIR"), "/tests/messages.txt");

struct Slip {
    head: String,
    text: Vec<u8>,
    told: String,
}

/// The bytes of a line with `\n`, `\0`, `\"`, `\xff` and `\u2192` written out.
fn bytes(line: &str) -> Vec<u8> {
    let mut bytes = Vec::new();
    let mut rest = line;
    while let Some((before, after)) = rest.split_once('\\') {
        bytes.extend_from_slice(before.as_bytes());
        let code = |from: usize, to: usize| u32::from_str_radix(&after[from..to], 16).expect("a number");
        let taken = match after.as_bytes()[0] {
            b'n' => {
                bytes.push(b'\n');
                1
            }
            b'0' => {
                bytes.push(0);
                1
            }
            b'x' => {
                bytes.push(code(1, 3) as u8);
                3
            }
            b'u' => {
                let letter = char::from_u32(code(1, 5)).expect("a letter");
                bytes.extend(letter.to_string().bytes());
                5
            }
            other => {
                bytes.push(other);
                1
            }
        };
        rest = &after[taken..];
    }
    bytes.extend_from_slice(rest.as_bytes());
    bytes
}

fn replaced(text: &str, old: &str, new: &str) -> Vec<u8> {
    let old = bytes(old);
    let at = text.as_bytes().windows(old.len()).position(|window| window == old);
    let at = at.unwrap_or_else(|| panic!("{} is not in the text", String::from_utf8_lossy(&old)));
    [&text.as_bytes()[..at], &bytes(new), &text.as_bytes()[at + old.len()..]].concat()
}

fn slips() -> (String, Vec<Slip>) {
    let stored = fs::read_to_string(STORE).expect("the stored messages");
    let (start, rest) = stored.split_once("\n## ").expect("a slip");
    let (_, fenced) = start.split_once("```\n").expect("the text");
    let (text, _) = fenced.split_once("```").expect("the text's end");
    let slip = |part: &str| {
        let mut lines = part.lines();
        let name = lines.next().unwrap_or_default();
        let first = lines.next().expect("a change");
        let (head, text) = match first.strip_prefix("= ").or(first.strip_prefix('=')) {
            Some(whole) => (format!("## {name}\n{first}\n"), bytes(whole)),
            None => {
                let second = lines.next().expect("a change");
                let old = first.strip_prefix("- ").expect("what is replaced");
                let new = second.strip_prefix("+ ").or(second.strip_prefix('+')).expect("by what");
                (format!("## {name}\n{first}\n{second}\n"), replaced(text, old, new))
            }
        };
        let told: String = lines.map(|line| format!("{line}\n")).collect();
        Slip {
            head,
            text,
            told: told.trim_end_matches('\n').to_string(),
        }
    };
    (start.to_string(), rest.split("\n## ").map(slip).collect())
}

#[test]
fn messages_are_as_stored() {
    let (start, slips) = slips();
    assert!(slips.len() >= 98);
    let folder = Folder::new();
    let mut stored = start.clone();
    stored.push('\n');
    for slip in &slips {
        folder.file("door.tlsf", &slip.text);
        let ran = folder.run(&["check", "door.tlsf"]);
        assert_eq!(ran.status, 1, "{}", slip.head);
        let told = ran.told.trim_end_matches('\n');
        stored.push_str(&format!("{}{told}\n\n", slip.head));
        if std::env::var_os("VASCULPI_STORE").is_none() {
            assert_eq!(told, slip.told, "{}", slip.head);
        }
    }
    if std::env::var_os("VASCULPI_STORE").is_some() {
        fs::write(Path::new(STORE), stored.trim_end_matches('\n').to_string() + "\n").expect("the messages are stored");
    }
}

/// The token of a kind, as a message calls it.
fn sample(kind: &str) -> &str {
    match kind {
        "a name" => " z",
        "a number" | "a word of 0, 1, *" => " 1",
        "a string" => " \"\"",
        "the end of the text" => "",
        spelling => spelling,
    }
}

const KINDS: [&str; 5] = ["a name", "a number", "a word of 0, 1, *", "a string", "the end of the text"];

/// Texts with tokens damaged, so that many are refused at every kind of place.
fn damaged_texts() -> Vec<Vec<u8>> {
    let mut rng = Prng::new(4);
    (0..DAMAGED).map(|_| generate::any_text(&mut rng)).collect()
}

const DAMAGED: usize = 1_000;

#[test]
fn what_is_expected_is_what_the_grammar_takes() {
    let folder = Folder::new();
    let words = second::token::FORMAT_WORDS;
    let signs = "(*) (+) (\\) (-) <-> == != /= <= >= <- && || -> .. ( ) [ ] { } , ; : = | + * / % - < > ! ~";
    let all: Vec<&str> = signs.split(' ').chain(words).chain(KINDS).collect();
    let texts: Vec<Vec<u8>> = slips().1.into_iter().map(|slip| slip.text).chain(damaged_texts()).collect();
    for (number, text) in texts.iter().enumerate() {
        folder.file(&format!("{number:04}.tlsf"), text);
    }
    folder.run(&["check", "--messages", "short", "--report", "report.json", "."]);
    let report: serde_json::Value = serde_json::from_slice(&folder.read("report.json")).expect("JSON");
    let (mut lists, mut tried) = (0, 0);
    for (number, text) in texts.iter().enumerate() {
        let file = &report["files"][number];
        if file["number"] != 4 {
            continue;
        }
        let place = file["place"].as_u64().expect("a place") as usize;
        let listed: Vec<&str> = file["expected"]
            .as_array()
            .expect("a list")
            .iter()
            .filter_map(|kind| kind.as_str())
            .collect();
        assert!(!listed.is_empty(), "{number}: {}", String::from_utf8_lossy(text));
        let in_enumeration = listed.contains(&"a word of 0, 1, *");
        for kind in &all {
            // On a line of its own: the text may end in a comment.
            let text = [&text[..place], format!("\n{}", sample(kind)).trim_end_matches(' ').as_bytes()].concat();
            let refused_here = match reader::read_freely(&text).answer {
                Answer::Refused(refusal) if refusal.number == 4 => {
                    refusal.place
                        == if *kind == "the end of the text" {
                            text.len()
                        } else {
                            text.len() - sample(kind).trim_start().len()
                        }
                }
                Answer::Refused(refusal) => refusal.number == 2,
                Answer::Accepted { .. } => false,
            };
            // A number and a word of an enumeration are spelt alike: which it is, is known by the place.
            let alike = (*kind == "a number" && in_enumeration)
                || (*kind == "a word of 0, 1, *" && !in_enumeration)
                || (*kind == "*" && in_enumeration);
            assert!(
                alike || listed.contains(kind) != refused_here,
                "{kind} in {number} at {place}: {}",
                String::from_utf8_lossy(&text)
            );
            tried += 1;
        }
        lists += 1;
    }
    println!("{lists} lists of expected tokens agree with the second converter's grammar, {tried} tokens tried");
    assert!(lists > 200);
}

#[test]
fn a_message_takes_no_time() {
    let folder = Folder::new();
    let (_, slips) = slips();
    let mut text = String::from_utf8(slips[0].text.clone()).expect("UTF-8");
    while text.len() < 31_000 {
        text = text.replace(
            "  ASSERT {\n",
            "  ASSERT {\n    open -> X (open || lamp[0] || !lamp[1]); // as long as the door is open\n",
        );
    }
    folder.file("door.tlsf", &text);
    // On the processors, of ten runs with the program's start: the shell counts what its children take.
    let program = env!("CARGO_BIN_EXE_vasculpi");
    let ten = format!("for run in 1 2 3 4 5 6 7 8 9 10; do '{program}' check door.tlsf 2> /dev/null; done; times");
    let output = Command::new("sh")
        .current_dir(&folder.path)
        .args(["-c", &ten])
        .output()
        .expect("sh");
    let printed = String::from_utf8_lossy(&output.stdout).into_owned();
    let seconds = |time: &str| -> f64 {
        let (minutes, seconds) = time.trim_end_matches('s').split_once('m').expect("minutes and seconds");
        minutes.parse::<f64>().expect("minutes") * 60.0 + seconds.parse::<f64>().expect("seconds")
    };
    let each: f64 = printed
        .lines()
        .nth(1)
        .expect("the children's times")
        .split(' ')
        .map(seconds)
        .sum::<f64>()
        * 100.0;
    println!(
        "a list of expected tokens in a text of {} bytes: {each:.1} ms of processors with the program's start",
        text.len()
    );
    assert!(each < 50.0);
}

/// Where a text whose target is of the other model is refused, nobody is told to change what he asks for.
#[test]
fn two_models() {
    let folder = Folder::new();
    let stored = fs::read_to_string(STORE).expect("the stored messages");
    let text = stored.split("```\n").nth(1).expect("the text");
    folder.file("door.tlsf", text.replace("TARGET: Mealy", "TARGET: Moore"));
    let ran = folder.run(&["check", "door.tlsf"]);
    let told = ran.told.replace("\n    ", " ");
    assert!(
        ran.status == 0 || told.contains("Writing the same model for both asks for another machine"),
        "{told}"
    );
}

/// Tokens taken out, put in and changed in the text of the slips: whatever comes of it, a message does.
#[test]
fn damaged_texts_have_messages() {
    let stored = fs::read_to_string(STORE).expect("the stored messages");
    let text = stored.split("```\n").nth(1).expect("the text");
    let folder = Folder::new();
    let mut rng = Prng::new(26);
    let pieces: Vec<&str> = text.split_inclusive([' ', '\n', '(', ')', '[', ']', ';']).collect();
    let odd = [
        "(+)[i IN {1}]",
        "{3, 3 .. 1}",
        "F[3:1] ",
        "SIZEOF ",
        "n - 3",
        "/* ",
        "\"",
        "ö",
        "} ",
        "enum ",
        "i",
        "/ 0",
        "&&[",
        ";",
        "2000000 ",
    ];
    let others = [
        "velocity",
        "n",
        "3",
        "mode",
        "lamp",
        "IDLE",
        "(n - 3)",
        "{1}",
        "true",
        "button",
        "(7 / 0)",
        "SIZEOF lamp",
    ];
    let count = 1_500;
    for number in 0..count {
        let mut damaged = pieces.clone();
        if number % 2 == 0 {
            // A name or a number in place of another keeps to the grammar.
            let is_name = |at: &usize| pieces[*at].trim_end_matches([' ', '\n', '(', ')', '[', ']', ';']).len() > 2;
            let names: Vec<usize> = (0..pieces.len()).filter(is_name).collect();
            let at = *rng.pick(&names);
            let end = &pieces[at][pieces[at].trim_end_matches([' ', '\n', '(', ')', '[', ']', ';']).len()..];
            let other = format!("{}{end}", rng.pick(&others));
            let text = [damaged[..at].concat(), other, damaged[at + 1..].concat()].concat();
            folder.file(&format!("{number:04}.tlsf"), text);
            continue;
        }
        for _ in 0..rng.between(1, 4) {
            let at = rng.below(damaged.len());
            match rng.below(4) {
                0 => {
                    damaged.remove(at);
                }
                1 => damaged.insert(at, *rng.pick(&odd)),
                2 => damaged[at] = *rng.pick(&pieces),
                _ => damaged.swap(at, 0),
            }
        }
        folder.file(&format!("{number:04}.tlsf"), damaged.concat());
    }
    let ran = folder.run(&["check", "--report", "report.json", "."]);
    assert_eq!(ran.status, 1);
    let report: serde_json::Value = serde_json::from_slice(&folder.read("report.json")).expect("JSON");
    let summary = &report["summary"];
    assert_eq!((&summary["files"], &summary["broken"]), (&count.into(), &0.into()));
    let numbers = summary["refused"].as_object().expect("refusals");
    assert!(numbers.len() > 4, "{summary}");
}
