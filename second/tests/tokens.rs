//! Tokens: refusals 1, 2, 3.

mod common;
use common::*;
use second::token::{scan, Kind};

fn kinds(text: &str) -> Vec<String> {
    let tokens = scan(text.as_bytes()).expect("the text has tokens");
    tokens
        .iter()
        .map(|token| text[token.start..token.end].to_string())
        .collect()
}

#[test]
fn refusal_1_over_32768_bytes() {
    refused_at(1, 32768, &[b' '; 32769]);
    refused_at(1, 32768, &[b'#'; 40000]);
    refused_at(4, 32768, &[b' '; 32768]);
    let text = lines("a");
    let padded = format!("{text}{}", " ".repeat(32768 - text.len()));
    accepted(&padded);
}

#[test]
fn refusal_2_no_token() {
    for byte in [
        "#", ".", "&", "\\", "'", "$", "^", "\u{b}", "\u{c}", "\0", "é", "?",
    ] {
        let text = lines(&format!("a {byte} b"));
        let place = text.find(&format!(" {byte} ")).unwrap() + 1;
        refused_at(2, place, text.as_bytes());
    }
    refused_at(2, 0, b"#");
    refused(2, &lines("{1,2 ..^. 3} == a"));
    let text = lines("a \u{7f} b");
    let place = text.find('\u{7f}').unwrap();
    refused_at(2, place, text.as_bytes());
}

#[test]
fn refusal_2_comments_and_strings() {
    refused(2, &lines("a ^/* /* */ b"));
    refused(2, &lines("a ^/*/ b"));
    refused(2, &lines("a ^\" b").replace("\"\"", ""));
    accepted(&lines("/* /* nested */ # \u{b} \" */ a // # \r # \n"));
    accepted(&format!("{} // no line feed", lines("a")));
    accepted(&format!("{} //", lines("a")));
    refused(
        4,
        &format!("{}^", lines("a // } \r ; } }").trim_end_matches("} }")),
    );
    accepted(
        &INFO
            .replace("\"\"", "\"# // /* \n ;\"")
            .replace("INFO", "/***/INFO")
            .to_string()
            .replace("} ", "} MAIN{INPUTS{}OUTPUTS{}}"),
    );
}

#[test]
fn refusal_2_long_names() {
    let long = "n".repeat(65);
    let fits = "n".repeat(64);
    refused(2, &lines(&format!("^{long}")));
    refused(6, &lines(&format!("^{fits}")));
    accepted(&signals(&fits, ""));
    refused(2, &lines(&format!("3^{long}")));
    refused(2, &defined(&format!("enum T = ^{long}: 0"), ""));
    refused(2, &format!("{} ^{long}", lines("")));
}

#[test]
fn refusal_3_the_8193rd_token() {
    refused_at(3, 8192, &[b';'; 8193]);
    refused_at(4, 0, &[b';'; 8192]);
    let mut spaced = " ;".repeat(8193);
    refused_at(3, 16385, spaced.as_bytes());
    // 2 over the whole text comes before 3.
    spaced.push('#');
    refused_at(2, 16386, spaced.as_bytes());
}

#[test]
fn longest_first() {
    assert_eq!(kinds("(*)"), ["(*)"]);
    assert_eq!(kinds("( * )"), ["(", "*", ")"]);
    assert_eq!(kinds("1<-2"), ["1", "<-", "2"]);
    assert_eq!(kinds("4/=2"), ["4", "/=", "2"]);
    assert_eq!(kinds("a!==b"), ["a", "!=", "=", "b"]);
    assert_eq!(
        kinds("|{1}||{2}|"),
        ["|", "{", "1", "}", "||", "{", "2", "}", "|"]
    );
    assert_eq!(kinds("(*[i"), ["(", "*", "[", "i"]);
    assert_eq!(
        kinds("a<->b<-c<=d->e-f"),
        ["a", "<->", "b", "<-", "c", "<=", "d", "->", "e", "-", "f"]
    );
    assert_eq!(kinds("(-)(\\)(+)(-"), ["(-)", "(\\)", "(+)", "(", "-"]);
    assert_eq!(kinds("&&[X["), ["&&", "[", "X", "["]);
    assert_eq!(kinds("3a _ @ x'y"), ["3", "a", "_", "@", "x'y"]);
    assert_eq!(kinds("{1,2..3}"), ["{", "1", ",", "2", "..", "3", "}"]);
    assert_eq!(kinds("|||"), ["||", "|"]);
    assert_eq!(kinds("===>=<"), ["==", "=", ">=", "<"]);
}

#[test]
fn words_of_enumerations() {
    assert_eq!(
        kinds("enum T = A: 0B: 1*, 10; 12"),
        ["enum", "T", "=", "A", ":", "0", "B", ":", "1*", ",", "10", ";", "12"]
    );
    assert_eq!(kinds("enum \";\" /*;*/ // }\n 01 } 01")[2], "01");
    let marks = scan(b"enum 01 } 01").unwrap();
    assert_eq!(marks[1].kind, Kind::Marks);
    assert_eq!(marks[3].kind, Kind::Numeral);
    assert_eq!(scan(b"enum 012;").unwrap_err().place, 7);
    assert_eq!(kinds("enum enum 0*1 ]"), ["enum", "enum", "0*1", "]"]);
    assert_eq!(kinds("enum 1/**/0 */"), ["enum", "1", "0", "*", "/"]);
    // `G enum 3;` is 2 at the `3`, also behind MAIN's `}`.
    refused(2, &lines("G enum ^3;"));
    refused(2, &format!("{} enum a ^2", lines("a")));
}
