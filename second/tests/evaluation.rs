//! Evaluation and results: refusals 11 to 18 of the reader.

mod common;
use common::*;
use second::answer::Answer;
use second::reader::read;

#[test]
fn refusal_11_values() {
    refused(11, &lines("2 ^- 3 == 1"));
    refused(11, &lines("1 ^/ 0 == 1"));
    refused(11, &lines("1 ^MOD (1 - 1) == 1"));
    refused(11, &lines("^1000001 == 1"));
    accepted(&lines("1000000 == 1; 0000000000000001000000 == 1000000"));
    refused(11, &lines("^99999999999999999999999999999 == 1"));
    refused(11, &lines("1000000 ^+ 1 == 1"));
    refused(11, &lines("1000 ^* 1001 == 1"));
    accepted(&lines("1000 * 1000 == 1000000"));
    refused(11, &lines("^MIN {} == 1"));
    refused(11, &lines("^MAX {} == 1"));
    refused(11, &lines("1 IN (^(*)[i IN {}] {i})"));
    refused(11, &lines("^F[2:1] a"));
    refused(11, &lines("^G[1:0] a"));
    accepted(&lines("F[1:1] a"));
    // No value beyond the range at any step: `2 - 3 + 5` is refused.
    refused(11, &lines("2 ^- 3 + 5 == 4"));
    refused(
        11,
        &lines("3 * 1000000 ^* 1 == 1").replace("3 * 1000000 ^* 1", "3 ^* 1000000 * 1"),
    );
}

#[test]
fn refusal_11_in_order() {
    refused(11, &lines("true || ^1000001 == 1"));
    refused(
        11,
        &lines("1 ^- 2 == ^1000001").replacen("^1000001", "1000001", 1),
    );
    refused(11, &lines("F[2 ^- 3 : 1 - 2] a"));
    refused(11, &lines("F[2 : 1 ^- 2] a"));
    refused(11, &lines("^F[2 : 1] v[9]"));
    refused(11, &lines("(1 ^/ 0) / (2 - 3) == 0"));
    refused(11, &parameters("n = 1^/0", ""));
    refused(11, &parameters("n = 1; m = n ^- 2; k = 1/0", ""));
    // A definition is worked out at each use, and only there.
    accepted(&defined("d = 1/0; f = F[2:1] a", "a"));
    refused(11, &defined("d = 1^/0", "a; d == 1"));
    refused(11, &defined("d = 1/0; e = 2 ^- 3", "e == d"));
    // Sections in text order, both before the other rules.
    refused(
        11,
        &after_info(
            "MAIN { GUARANTEE { 1 ^/ 0 == 1 } INPUTS {} ASSUME { 2 - 3 == 1 } OUTPUTS {} }",
        ),
    );
    refused(
        11,
        &after_info("MAIN { GUARANTEE { 1 / 0 == 1 } INPUTS { x[2 ^- 3] } OUTPUTS { y[0] } }"),
    );
}

#[test]
fn folds_go_in_step() {
    refused(11, &lines("^+[i IN {0, 1}] (1000000 - i + i) == 1"));
    refused(
        11,
        &lines("*[i IN {1000, 2000}] ^*[j IN {1000, 2000}] j == 1"),
    );
    refused(
        11,
        &lines("^*[i IN {1000, 2000, 0}] (i + 0) == 1")
            .replace("{1000, 2000, 0}", "{1, 1000, 2000}"),
    );
    // First operand, second, combine, third: the sum of the first two comes before the third.
    refused(11, &lines("^+[i IN {1,2,3}] (1000000 / (3 - i)) == 1"));
    refused(11, &lines("+[i IN {1,2,3}] (100 ^/ (3 - i)) == 1"));
    is_number("+[i IN {1000000}] i", 1000000);
    is_number("*[i IN {1000000}] i", 1000000);
    is_number("+[i IN {}] (1/0)", 0);
    is_number("*[i IN {}] (1/0)", 1);
    is_number("+[i IN {1,2}, j IN {i, 5}] (i * j)", 1 + 5 + 4 + 10);
    is_set("(+)[i IN {}] {1/0}", &[]);
    expands("&&[i IN {}] v[9]", "true");
    expands("||[i IN {}] v[9]", "false");
    is_number("*[i IN {2}, j IN {}] j", 1);
    refused(
        11,
        &lines("1 IN ^(*)[i IN {1}, j IN {}] {1}").replace(
            "IN ^(*)[i IN {1}, j IN {}] {1}",
            "IN (^(*)[i IN {1}, j IN {}] {1})",
        ),
    );
}

#[test]
fn refusal_12_sets() {
    refused(12, &lines("1 IN ^{3,3..5}"));
    refused(12, &lines("1 IN ^{3,2..1}"));
    refused(12, &lines("1 IN ^{0,1..256}"));
    accepted(&lines("|{0,1..255}| == 256"));
    refused(12, &lines("1 IN ^{0,1..1000000}"));
    refused(11, &lines("1 IN {3,2..1 ^/ 0}"));
    let list = |count: usize| {
        (0..count)
            .map(|n| n.to_string())
            .collect::<Vec<_>>()
            .join(",")
    };
    accepted(&lines(&format!("1 IN {{{}, 0, 1, 2}}", list(256))));
    refused(12, &lines(&format!("1 IN ^{{{}}}", list(257))));
    refused(11, &lines(&format!("1 IN {{{}, 1 ^/ 0}}", list(257))));
    refused(12, &lines("1 IN ({0,1..255} ^(+) {256})"));
    accepted(&lines("1 IN ({0,1..255} (+) {255})"));
    refused(12, &lines("1 IN (^(+)[i IN {0,1}] {i, i+2 .. 510 + i})"));
    refused(12, &lines("&&[0 ^<= i < 257] a"));
    accepted(&lines("&&[0 <= i < 256] true"));
    refused(12, &lines("&&[0 ^<= i <= 256] a"));
    refused(12, &lines("&&[i IN {1}, 0 ^LE j LEQ 257] a"));
    refused(11, &lines("&&[0 <= i < 1000000 ^+ 1] a"));
    // Nothing is formed beyond the two values.
    is_number("+[0 <= i < 0] i", 0);
    is_number("+[1000000 < i < 0] i", 0);
    is_number("+[1000000 < i <= 1000000] i", 0);
    is_number("+[1000000 <= i <= 1000000] i", 1000000);
    is_number("+[0 < i < 4] i", 6);
    is_number("+[0 < i <= 4] i", 10);
    is_set("{1,3..8}", &[1, 3, 5, 7]);
    is_set("{3,4..2}", &[]);
    is_set("{3,4..3}", &[3]);
    is_set("{0,1000000..1000000}", &[0, 1000000]);
}

#[test]
fn refusal_13_buses() {
    refused(13, &lines("^v[3]"));
    accepted(&lines("v[2]"));
    refused(11, &lines("v[3 ^- 4]"));
    refused(13, &signals("^x[0]", ""));
    refused(13, &signals("^x[256]", ""));
    accepted(&signals("x[255]", ""));
    refused(13, &signals("x[SIZEOF ^x]", ""));
    refused(13, &signals("x[SIZEOF (^y)]; y[1]", ""));
    accepted(&signals("y[2]; x[SIZEOF y]", ""));
    refused(13, &signals("x[SIZEOF ^y]", "y[1]"));
    accepted(&signals("y[1]", "x[SIZEOF y]"));
    // Inputs are sized before outputs whatever the order in the text.
    refused(
        13,
        &after_info("MAIN { OUTPUTS { y[1] } INPUTS { x[SIZEOF ^y] } }"),
    );
    accepted(&after_info(
        "MAIN { OUTPUTS { y[SIZEOF x] } INPUTS { x[1] } }",
    ));
    refused(
        13,
        &after_info("MAIN { OUTPUTS { y[0] } INPUTS { ^x[0] } }"),
    );
    refused(
        13,
        &after_info("GLOBAL { PARAMETERS { n = SIZEOF ^y } } MAIN { INPUTS { y[1] } OUTPUTS {} }"),
    );
    // Widths bus by bus: 11 in the second comes after 13 of the first.
    refused(13, &signals("^x[0]; y[1/0]", ""));
    refused(11, &signals("x[1 ^/ 0]; y[0]", ""));
    // A bus by enumeration too is sized at its own turn.
    let by_type = |inputs: &str| {
        after_info(&format!(
            "GLOBAL {{ DEFINITIONS {{ enum T = A: 01 B: 1*; d = SIZEOF e; }} }} \
             MAIN {{ INPUTS {{ {inputs} }} OUTPUTS {{}} GUARANTEE {{ e == A }} }}"
        ))
    };
    refused(13, &by_type("x[SIZEOF ^e]; T e"));
    accepted(&by_type("T e; x[SIZEOF e]"));
    accepted(&by_type("T e; x[d]"));
    refused(13, &by_type("x[d]; T e").replace("SIZEOF e", "SIZEOF ^e"));
    // A value may be compared with any bus of its width.
    accepted(&by_type("e[2]"));
    refused(13, &by_type("e[3]").replace("e == A", "^e == A"));
    refused(13, &by_type("e[3]").replace("e == A", "A != ((^e))"));
    refused(13, &by_type("e[1]").replace("e == A", "true && (^e) != A"));
}

#[test]
fn order_of_15_16() {
    // 02, F-2: '14 no longer occurs', so unlike models change nothing in the order.
    let mixed = |main: &str| {
        format!(
            "INFO {{ TITLE: \"\" DESCRIPTION: \"\" SEMANTICS: Moore TARGET: Mealy }} MAIN {{ {main} }}"
        )
    };
    accepted(&mixed("INPUTS {} OUTPUTS {}"));
    let long = "INPUTS { a[200]; ^b[56]; } OUTPUTS {} GUARANTEE { X[9000] a[0] }";
    refused(15, &mixed(long));
    refused(
        15,
        &mixed(long)
            .replace("Moore", "Mealy, Strict")
            .replace("TARGET: Mealy", "TARGET: Moore"),
    );
    refused(11, &mixed("INPUTS {} OUTPUTS {} ASSERT { 1 ^/ 0 == 1 }"));
    refused(15, &signals("a[200]; ^b[56];", ""));
    refused(15, &signals("a[200]", "b[55]; ^c"));
    accepted(&signals("a[200]", "b[55]"));
    refused(
        15,
        &signals("a[200]; ^b[56]", "c[255]")
            .replace("[255] } }", "[255] } ASSERT { X[9000] true } }"),
    );
    refused(
        15,
        &after_info("MAIN { OUTPUTS { b[56]; ^c } INPUTS { a[200]; } }")
            .replace("b[56]; ^c", "^b[56]; c"),
    );
    refused(16, &format!("^{}", lines("X[8192] a")));
    refused(16, &format!("^{}", lines("X[8180] a")));
    accepted(&lines("X[8179] a"));
    // Windows exactly at the limit: n + k * (m - n + 1) + 2 * (m - n) nodes, and 12 around them.
    for (at, beyond) in [
        ("F[1:2727] a", "F[2:2728] a"),
        ("G[2:2046] !a", "G[3:2047] !a"),
        ("F[0:1] X[4088] a", "F[0:1] X[4089] a"),
    ] {
        assert_eq!(accepted(&lines(at)).nodes.len(), 8192, "{at}");
        refused(16, &format!("^{}", lines(beyond)));
    }
    refused(13, &lines("X[8192] a; ^v[3]"));
    refused(
        16,
        &format!(
            "^{}",
            lines("F[0:1000000] F[0:1000000] G[0:1000000] F[0:1000000] X[1000000] F[0:1000000] a")
        ),
    );
    // A chain of definitions that doubles each time.
    let chain: String = (1..200)
        .map(|n| format!("d{n} = d{} && d{};", n - 1, n - 1))
        .collect();
    refused(
        16,
        &format!("^{}", defined(&format!("d0 = a; {chain}"), "d199")),
    );
    let sums: String = (1..200)
        .map(|n| format!("d{n} = d{} + d{};", n - 1, n - 1))
        .collect();
    accepted(&defined(&format!("d0 = 0; {sums}"), "d199 == 0"));
    refused(
        11,
        &defined(&format!("d0 = 1; {sums}"), "d199 == 0").replace("d19 + d19", "d19 ^+ d19"),
    );
}

#[test]
fn rooms_17_and_18() {
    let text = lines("a");
    let count = accepted(&text).nodes.len();
    let answer = |work, nodes, signals| read(text.as_bytes(), work, nodes, signals).answer;
    assert_eq!(answer(65535, 8192, 255), Answer::refused(17, 0));
    assert_eq!(answer(0, 0, 0), Answer::refused(17, 0));
    assert_eq!(answer(65536, count - 1, 255), Answer::refused(18, 0));
    assert_eq!(answer(65536, count, 5), Answer::refused(18, 0));
    assert!(answer(65536, count, 6).is_accepted());
    assert_eq!(
        read(&[b' '; 32769], 65535, 0, 0).answer,
        Answer::refused(17, 0)
    );
    let empty = signals("", "");
    assert_eq!(
        read(empty.as_bytes(), 65536, 12, 0).answer,
        Answer::refused(18, 0)
    );
    assert!(read(empty.as_bytes(), 65536, 13, 0).answer.is_accepted());
    let long = lines("X[8192] a");
    assert_eq!(
        read(long.as_bytes(), 65536, 0, 0).answer,
        Answer::refused(16, 0)
    );
}

#[test]
fn no_lines_at_all() {
    assert_eq!(accepted(&signals("", "")).nodes.len(), 13);
    let strict = signals("", "").replace("SEMANTICS: Mealy", "SEMANTICS: Mealy, Strict");
    assert_eq!(accepted(&strict).nodes.len(), 15);
}

#[test]
fn sections_are_joined() {
    let text = |semantics: &str| {
        format!(
            "INFO {{ TITLE: \"\" DESCRIPTION: \"\" SEMANTICS: {semantics} TARGET: Moore }} MAIN {{ \
             GUARANTEES {{ u }} INPUTS {{ i; p; r; a; s; u; }} ASSUMPTIONS {{ s }} OUTPUTS {{}} \
             INVARIANTS {{ a }} REQUIRE {{ r }} PRESET {{ p }} INITIALLY {{ i }} }}"
        )
    };
    let formula = |text: &str| {
        let nodes = accepted(text).nodes;
        infix(&nodes, nodes.len() - 1)
    };
    assert_eq!(
        formula(&text("Moore")),
        "(s0 -> (s1 && ((G(s2) && s4) -> (G(s3) && s5))))"
    );
    assert_eq!(
        formula(&text("Moore, Strict")),
        "(s0 -> ((s1 && (s3 W !(s2))) && ((G(s2) && s4) -> s5)))"
    );
}

#[test]
fn windows_and_words() {
    expands("X[0] a", "s0");
    expands("X[3] a", "X(X(X(s0)))");
    expands("F[2:3] a", "X(X((s0 || X(s0))))");
    expands("G[1:3] a", "X((s0 && X((s0 && X(s0)))))");
    expands("F[0:0] a", "s0");
    expands("&&[i IN {2,0,1}] v[i]", "((s3 && s4) && s5)");
    expands(
        "&&[i IN {0,1}, j IN {0,1}] v[i+j]",
        "((s3 && s4) && (s4 && s5))",
    );
    let value =
        |words: &str, line: &str| guarantee(&defined(&format!("enum T = A: {words}"), line));
    assert_eq!(value("001", "v == A"), "((!(s3) && !(s4)) && s5)");
    assert_eq!(value("11*, 1*1", "A == v"), "((s3 && s4) || (s3 && s5))");
    assert_eq!(value("***", "v == A"), "true");
    assert_eq!(value("***, 0**", "v != A"), "!((true || !(s3)))");
    assert_eq!(value("**1", "v != A"), "!(s5)");
}

#[test]
fn implied_lines() {
    let text = |enumeration: &str, main: &str| {
        after_info(&format!(
            "GLOBAL {{ DEFINITIONS {{ enum T = {enumeration} }} }} MAIN {{ {main} }}"
        ))
    };
    let formula = |text: &str| {
        let nodes = accepted(text).nodes;
        infix(&nodes, nodes.len() - 1)
    };
    let whole = text("A: 0* B: 1*", "INPUTS { T x } OUTPUTS { T y }");
    assert_eq!(accepted(&whole).nodes.len(), 13);
    let some = text(
        "A: 0* B: 10",
        "OUTPUTS { T y; q; T z } INPUTS { p; T x } REQUIRE { p }",
    );
    assert_eq!(
        formula(&some),
        "(true -> (true && ((G((s0 && (!(s1) || (s1 && !(s2))))) && true) -> \
         (G(((!(s3) || (s3 && !(s4))) && (!(s6) || (s6 && !(s7))))) && true))))"
    );
    // One flat `||` over all words.
    let flat = text("A: 00, 01 B: 10", "OUTPUTS { T y } INPUTS {}");
    assert!(formula(&flat).contains("(((!(s0) && !(s1)) || (!(s0) && s1)) || (s0 && !(s1)))"));
    // A plain bus adds nothing.
    assert_eq!(
        accepted(&text("A: 00", "INPUTS { x[2] } OUTPUTS {}"))
            .nodes
            .len(),
        13
    );
}

#[test]
fn signal_list() {
    let text = after_info("MAIN { OUTPUTS { g; h[2] } INPUTS { r; w[1]; } }");
    let offset = |name: &str| text.find(&format!(" {name}")).unwrap() as u32 + 1;
    let reading = accepted(&text);
    assert_eq!(
        reading.answer,
        Answer::Accepted {
            nodes: 13,
            signals: 5
        }
    );
    assert_eq!(
        reading.signals,
        [
            offset("r;") << 16,
            offset("w[") << 16 | 1,
            1 << 31 | offset("g;") << 16,
            1 << 31 | offset("h[") << 16 | 2,
            1 << 31 | offset("h[") << 16 | 1 << 8 | 2,
        ]
    );
    // A bus by enumeration: the offset of its own name.
    let text = after_info(
        "GLOBAL { DEFINITIONS { enum T = A: 01 } } MAIN { INPUTS { T bus } OUTPUTS {} }",
    );
    let place = text.find("bus").unwrap() as u32;
    assert_eq!(
        accepted(&text).signals,
        [place << 16 | 2, place << 16 | 1 << 8 | 2]
    );
}

#[test]
fn the_file_in_full() {
    let text = "INFO { TITLE: \"t\" DESCRIPTION: \"d\" SEMANTICS: Mealy TARGET: Mealy } MAIN { \
                INPUTS { r; } OUTPUTS { g; } GUARANTEE { G (r -> F g); } }";
    let listing = second::listing::listing(&reading(text));
    let expected = "accepted 17 2\n0 0 0 0\n1 0 0 0\n2 0 0 0\n3 9 2 0\n4 0 0 0\n5 4 3 4\n6 0 0 0\n\
                    7 9 6 0\n8 2 0 0\n9 2 1 0\n10 10 9 0\n11 6 8 10\n12 9 11 0\n13 4 7 12\n\
                    14 6 5 13\n15 4 1 14\n16 6 0 15\n";
    assert_eq!(listing, expected);
    assert_eq!(second::listing::listing(&reading("")), "refused 4 0\n");
}

#[test]
fn definitions_nest_deeply() {
    let chain = |first: &str, open: &str, close: &str| {
        let mut lines = format!("d0 = {first};");
        for number in 1..31 {
            let (open, close) = (open.repeat(120), close.repeat(120));
            lines.push_str(&format!("d{number} = {open}d{}{close};", number - 1));
        }
        lines
    };
    let nots = chain("a", "!!", "");
    let text = defined(&nots, "d30");
    assert_eq!(accepted(&text).nodes.len(), 12 + 7200 + 1);
    let word = second::recording::Lasso {
        loop_start: 0,
        letters: vec![vec![true], vec![false]],
    };
    assert_eq!(
        second::meaning::meaning(text.as_bytes(), &word),
        Ok(vec![true, false])
    );
    accepted(&defined(&chain("7", "(", ")"), "d30 == 7"));
    accepted(&defined(&chain("{7}", "(", ")"), "7 IN d30"));
}
