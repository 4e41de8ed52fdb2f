//! Trees, names, types and words of enumerations: refusals 5 to 10.

mod common;
use common::*;

#[test]
fn refusal_5_levels() {
    let nots = |count: usize| "!".repeat(count);
    accepted(&lines(&format!("{}a", nots(255))));
    refused(5, &lines(&format!("b; ^{}a", nots(256))));
    refused(5, &lines(&format!("^{}a", nots(257))));
    // A parenthesis is a level.
    let parens = |count: usize| format!("{}a{}", "(".repeat(count), ")".repeat(count));
    accepted(&lines(&parens(255)));
    refused(5, &lines(&format!("^{}", parens(256))));
    // Left-deep chains count like any tree.
    let chain = |count: usize| vec!["a"; count].join(" && ");
    accepted(&lines(&chain(256)));
    refused(5, &lines(&format!("^{}", chain(257))));
    // `{}` is a leaf; a set of one number has two levels.
    refused(
        9,
        &lines(&format!("^{}{{}}{}", "(".repeat(255), ")".repeat(255))),
    );
    refused(
        5,
        &lines(&format!("^{}{{1}}{}", "(".repeat(255), ")".repeat(255))),
    );
    // A big operator is one level above its sets, bounds and body.
    accepted(&lines(&format!(
        "{}&&[i IN {{1}}, j IN {{2}}] a",
        nots(253)
    )));
    refused(5, &lines(&format!("^{}&&[i IN {{1}}] a", nots(254))));
    accepted(&lines(&format!("{}&&[0<=i<2] a", nots(254))));
    accepted(&lines(&format!("{}F[0:1] a", nots(254))));
    refused(5, &lines(&format!("^{}X[1] a", nots(255))));
    accepted(&lines(&format!("{}v[0]", nots(254))));
    refused(5, &lines(&format!("^{}v[0]", nots(255))));
    // Size bars are a level above their set.
    refused(5, &lines(&format!("^{}|{{}}| == 0", nots(254))));
    accepted(&lines(&format!("{}|{{}}| == 0", nots(253))));
}

#[test]
fn refusal_5_place_is_the_outermost_expression() {
    let nots = "!".repeat(256);
    refused(5, &lines(&format!("^b && {nots}a")));
    refused(5, &defined(&format!("d = ^(c) || {nots}a"), "a"));
    refused(5, &signals(&format!("x[^1 && {nots}a]; a"), ""));
    refused(5, &parameters(&format!("n = ^{nots}a"), "a"));
    // Definitions are not put in place of their names.
    let half = "!".repeat(200);
    accepted(&defined(
        &format!("d = {half}a; e = {half}d"),
        &format!("{half}e"),
    ));
}

#[test]
fn refusal_6_not_visible() {
    refused(6, &lines("G ^q"));
    refused(6, &lines("G ^q[r]"));
    refused(6, &lines("v[^q]"));
    refused(6, &parameters("n = ^n", ""));
    refused(6, &parameters("n = ^m; m = 1", ""));
    refused(6, &defined("d = ^d", ""));
    refused(6, &defined("d = ^e; e = true", ""));
    refused(6, &defined("d = v == ^A; enum T = A: 000", ""));
    refused(6, &signals("^T x", ""));
    refused(6, &lines("&&[i IN {^i}] a"));
    refused(6, &lines("&&[0 <= i < ^i] a"));
    refused(6, &lines("&&[^i <= i < 1] a"));
    refused(6, &lines("&&[0<=i<2] v[i] -> F v[^i]"));
    refused(6, &lines("+[i IN {1}] i * ^i == 1"));
    refused(6, &lines("&&[j IN {^i}, i IN {1}] a"));
    refused(6, &lines("(&&[i IN {1}] v[i]) && v[^i]"));
    accepted(&lines("&&[i IN {1}, j IN {i}] v[j]"));
    accepted(&lines("&&[i IN (+)[i IN {1}] {i}] a"));
    accepted(&defined("d = a && SIZEOF v == 3", "d"));
    accepted(&parameters("n = 1; m = n + 1", "m == 2"));
    // The smallest offset of the whole text, sections before INPUTS included.
    refused(
        6,
        &after_info("MAIN { ASSUME { ^p } INPUTS { x[q] } OUTPUTS {} }"),
    );
}

#[test]
fn refusal_7_declared_again() {
    refused(7, &signals("a; ^a;", ""));
    refused(7, &signals("a", "^a"));
    refused(7, &after_info("MAIN { OUTPUTS { a; } INPUTS { ^a[2]; } }"));
    refused(7, &parameters("n = 1; ^n = 2", ""));
    refused(7, &with("PARAMETERS { n = 1 } DEFINITIONS { ^n = 2 }", ""));
    refused(7, &defined("enum T = A: 0 ^A: 1", ""));
    refused(7, &defined("enum T = ^T: 0", ""));
    refused(7, &defined("enum T = A: 0; enum S = ^A: 0", ""));
    refused(7, &defined("enum T = A: 0; ^T = 1", ""));
    refused(
        7,
        &after_info("GLOBAL { PARAMETERS { a = 1; } } MAIN { INPUTS { ^a } OUTPUTS {} }"),
    );
    refused(7, &lines("&&[^a IN {1}] true"));
    refused(
        7,
        &after_info("MAIN { ASSUME { &&[i IN {1}] true } INPUTS { ^i } OUTPUTS {} }"),
    );
    refused(
        7,
        &after_info(
            "GLOBAL { DEFINITIONS { d = &&[i IN {1}] true } } MAIN { INPUTS { ^i } OUTPUTS {} }",
        ),
    );
    refused(7, &lines("&&[i IN {1}, ^i IN {1}] a"));
    refused(7, &lines("&&[i IN {1}] &&[^i IN {1}] a"));
    refused(7, &lines("&&[i IN {1}] (a && &&[^i IN {1}] a)"));
    refused(7, &lines("&&[i IN {1}, j IN (+)[^i IN {1}] {i}] a"));
    refused(7, &parameters("n = 1", "&&[^n IN {1}] a"));
    refused(7, &defined("n = 1; m = +[^n IN {1}] n", ""));
    accepted(&defined("w = &&[w IN {}] true;", "w"));
    accepted(&defined("d = &&[i IN {1}] a; i = 3", "d"));
    accepted(&lines("&&[i IN {1}] a; &&[i IN {1}] a"));
    accepted(&lines("(&&[i IN {1}] a) && &&[i IN {1}] a"));
    // With three equal names the smallest of the later places.
    refused(
        7,
        &after_info("MAIN { ASSUME { &&[i IN {1}] true } OUTPUTS { ^i } INPUTS { i } }"),
    );
    refused(7, &signals("x; ^x; x", ""));
    // 6 comes first.
    refused(6, &lines("&&[a IN {1}] ^q"));
}

#[test]
fn refusal_8_too_many_names() {
    let many = |count: usize| (0..count).map(|n| format!("s{n};")).collect::<String>();
    refused(8, &signals(&format!("{}^last", many(256)), ""));
    refused(8, &signals(&format!("{}^last; more", many(256)), "x"));
    refused(15, &signals(&format!("{}^last", many(255)), ""));
    accepted(&signals(&many(255), ""));
    // Types and identifiers count, big operators' names do not; text order.
    let text = |count: usize, rest: &str| {
        after_info(&format!(
            "GLOBAL {{ PARAMETERS {{ n = +[i IN {{1}}] i }} DEFINITIONS {{ enum T = A: 0 B: 1; \
             d = true }} }} MAIN {{ OUTPUTS {{ {} {rest} }} INPUTS {{}} }}",
            many(count)
        ))
    };
    accepted(&text(251, ""));
    refused(8, &text(251, "^x"));
    refused(
        8,
        &after_info(&format!(
            "MAIN {{ OUTPUTS {{ {}^x }} INPUTS {{ y }} }}",
            many(256)
        )),
    );
    // 7 comes first.
    refused(7, &signals(&format!("{}x; ^x", many(256)), ""));
}

#[test]
fn refusal_9_types() {
    refused(9, &lines("MIN ^3 == 1"));
    refused(9, &parameters("n = MIN ^3", ""));
    refused(9, &lines("^MIN 3"));
    refused(9, &lines("^3 - true"));
    refused(9, &lines("1 == 3 - ^true"));
    refused(9, &lines("SIZEOF ^3 == 1"));
    refused(9, &lines("SIZEOF ^a == 1"));
    refused(9, &lines("SIZEOF ^v[0] == 1"));
    refused(9, &lines("|^{1}||{2}| == 1"));
    refused(9, &lines("^1"));
    refused(9, &lines("^{1}"));
    refused(9, &lines("^v"));
    refused(9, &lines("!^v"));
    refused(9, &lines("^v && a"));
    refused(9, &lines("a U ^(1)"));
    refused(9, &lines("^a[0]"));
    refused(9, &lines("^a[true]"));
    refused(9, &lines("v[^a]"));
    refused(9, &lines("v == ^1"));
    refused(9, &lines("1 == ^v"));
    refused(9, &lines("v == ^v"));
    refused(9, &lines("^a == 1"));
    refused(9, &lines("^a == b"));
    refused(9, &lines("1 == ^a"));
    refused(9, &lines("^{1} == {1}"));
    refused(9, &lines("v == ^v[0]"));
    refused(
        9,
        &lines("1 == 1 == ^1").replace("1 == 1 == ^1", "^1 == 1 == 1"),
    );
    refused(9, &lines("1 < ^a"));
    refused(9, &lines("^v < 1"));
    refused(9, &lines("1 IN ^1"));
    refused(9, &lines("^a IN {1}"));
    refused(9, &lines("{1, ^a} == 1").replace("{1, ^a}", "^{1, a}"));
    refused(9, &lines("1 IN {1, ^a}"));
    refused(9, &lines("1 IN {1, 2 .. ^{3}}"));
    refused(9, &lines("X[^a] a"));
    refused(9, &lines("F[1:^a] a"));
    refused(9, &lines("F[1:2] ^1"));
    refused(9, &lines("&&[i IN ^1] a"));
    refused(9, &lines("&&[^a <= i < 1] a"));
    refused(9, &lines("&&[0 <= i < ^{1}] a"));
    refused(9, &lines("&&[i IN {1}] ^i"));
    refused(9, &lines("+[i IN {1}] ^{i} == 1"));
    refused(9, &lines("1 IN (+)[i IN {1}] ^i"));
    refused(9, &lines("1 IN ({1} (+) ^1)"));
    refused(9, &lines("1 + ^(a) == 1"));
    refused(9, &parameters("n = ^true", ""));
    refused(9, &parameters("n = ^a", ""));
    refused(9, &parameters("n = ^{1}", ""));
    refused(9, &signals("x[^true]", ""));
    refused(9, &signals("x[^{}]", ""));
    refused(9, &signals("^y x; y", ""));
    refused(
        9,
        &after_info("GLOBAL { PARAMETERS { n = 2 } } MAIN { INPUTS { ^n x } OUTPUTS {} }"),
    );
}

#[test]
fn refusal_9_definitions_and_values() {
    let global = "enum T = A: 000 B: 001;";
    let text = |lines: &str| defined(global, lines);
    accepted(&text("v == A; A == v; v != A; (v) == (B); ((A)) == (v)"));
    refused(9, &text("A == ^B"));
    refused(9, &text("A == ^1"));
    refused(9, &text("1 == ^A"));
    refused(9, &text("v == ^T"));
    refused(9, &text("^T == v"));
    refused(9, &text("^A"));
    refused(9, &text("^T"));
    refused(
        9,
        &text("v == A == ^B").replace("v == A == ^B", "^v == A == B"),
    );
    refused(9, &text("v < ^A").replace("v < ^A", "^v < A"));
    refused(9, &text("^A[0]"));
    refused(9, &defined("d = ^v", ""));
    refused(9, &defined("d = ^(v)", ""));
    refused(9, &defined("enum T = A: 0; d = ^A", ""));
    refused(9, &defined("enum T = A: 0; d = ^T", ""));
    refused(9, &defined("d = 1 + ^a", ""));
    refused(9, &defined("d = 1", "^d"));
    refused(
        9,
        &defined("d = {1}", "d == 1").replace("{ d == 1", "{ ^d == 1"),
    );
    accepted(&defined("d = 1; s = {d}; f = d IN s", "f"));
    // The first place of the whole text: a section before INPUTS counts before a width.
    refused(
        9,
        &after_info("MAIN { ASSUME { ^1 } INPUTS { x[true] } OUTPUTS {} }"),
    );
    refused(
        9,
        &after_info("MAIN { INPUTS { x[^true] } ASSUME { 1 } OUTPUTS {} }"),
    );
}

#[test]
fn refusal_10_words() {
    let text = |enumeration: &str| defined(&format!("enum T = {enumeration}"), "");
    refused(10, &text("A: 1 B: ^01"));
    refused(10, &text("A: 1, ^01"));
    refused(10, &text("A: ^000000000"));
    refused(10, &text(&format!("A: ^{}", "0".repeat(100))));
    accepted(&text("A: 00000000"));
    refused(10, &text("A: 00, 01 B: ^01"));
    refused(10, &text("A: 0* B: 10 C: ^*0"));
    refused(10, &text("A: *1 B: ^1*"));
    accepted(&text("A: 0*, *0 B: 11"));
    accepted(&text("A: 0*, 0* B: 11"));
    let words = |count: usize| vec!["0000"; count].join(", ");
    accepted(&text(&format!("A: {}", words(16))));
    refused(10, &text(&format!("A: {}, ^0000", words(16))));
    refused(
        10,
        &text(&format!("A: {}, 0000 B: 1111, ^0000", words(13))).replace("^0000", "1110 C: ^1100"),
    );
    // Each enumeration by itself.
    accepted(&defined("enum T = A: 0; enum S = B: 00", ""));
    refused(10, &defined("enum S = B: 00 C: ^00; enum T = A: 0, 00", ""));
}

// G4, G5: the grammar knows no types, and any expression may stand in brackets.
#[test]
fn misfits_in_brackets_are_9() {
    refused(9, &lines("v[^a U b]"));
    refused(9, &lines("X[^a R b] c"));
    refused(9, &lines("F[0 : ^a W b] c"));
    refused(9, &lines("|^a -> b| == 1"));
    refused(9, &lines("1 IN {^a U b}"));
    refused(9, &lines("1 IN {1, 2 .. ^a U b}"));
    refused(9, &lines("&&[i IN ^a U b] c"));
    refused(9, &signals("a; x[^a U a]", ""));
    refused(9, &parameters("n = ^a U b", ""));
    refused(9, &lines("MIN ^MIN {1} == 1"));
    refused(9, &lines("SIZE ^(a && b) == 1"));
    refused(9, &lines("&&[^{1} (+) {2} < i < 3] c"));
    refused(9, &lines("+[i IN {1}] ^(i == 1) == 1"));
    accepted(&lines("((a U b)); v[(1)]; X[(1)] c; |({1})| == (1)"));
}
