//! Grammar: refusal 4, and how expressions are read.

mod common;
use common::*;

#[test]
fn missing_ends() {
    refused_at(4, 0, b"");
    refused_at(4, 3, b" \n ");
    refused_at(4, 9, b"/* ...*/ ");
    refused(4, "INFO {^");
    refused(4, &format!("{}// c\n ^", INFO));
    refused(4, &format!("{} ^x", lines("a")));
    refused(4, &format!("{} ^}}", lines("a")));
    let unclosed = lines("a").trim_end_matches(&[' ', '}'][..]).to_string();
    refused(4, &format!("{unclosed} /* */ ^"));
}

#[test]
fn info_lines() {
    let info = |body: &str| format!("INFO {{ {body} }} MAIN {{ INPUTS {{}} OUTPUTS {{}} }}");
    accepted(&info(
        "TITLE: \"\" DESCRIPTION: \"\" SEMANTICS: Moore TARGET: Moore",
    ));
    accepted(&info(
        "TITLE:\"\"DESCRIPTION:\"\"SEMANTICS:Mealy,Strict TARGET:Mealy TAGS:a,\"b\",c",
    ));
    refused(
        4,
        &info("^DESCRIPTION: \"\" TITLE: \"\" SEMANTICS: Mealy TARGET: Mealy"),
    );
    refused(
        4,
        &info("TITLE: \"\"^; DESCRIPTION: \"\" SEMANTICS: Mealy TARGET: Mealy"),
    );
    refused(
        4,
        &info("TITLE: ^t DESCRIPTION: \"\" SEMANTICS: Mealy TARGET: Mealy"),
    );
    refused(
        4,
        &info("TITLE: \"\" DESCRIPTION: \"\" SEMANTICS: ^Strict TARGET: Mealy"),
    );
    refused(
        4,
        &info("TITLE: \"\" DESCRIPTION: \"\" SEMANTICS: Mealy ^Strict TARGET: Mealy"),
    );
    refused(
        4,
        &info("TITLE: \"\" DESCRIPTION: \"\" SEMANTICS: Mealy TARGET: Mealy^, Strict"),
    );
    refused(
        4,
        &info("TITLE: \"\" DESCRIPTION: \"\" SEMANTICS: Mealy TARGET: Mealy TAGS: ^"),
    );
    refused(
        4,
        &info("TITLE: \"\" DESCRIPTION: \"\" SEMANTICS: Mealy TARGET: Mealy TAGS: a, ^"),
    );
    refused(
        4,
        &info("TITLE: \"\" DESCRIPTION: \"\" SEMANTICS: Mealy TARGET: Mealy TAGS: a ^b"),
    );
    refused(
        4,
        &info("TITLE: \"\" DESCRIPTION: \"\" SEMANTICS: Mealy TARGET: Mealy TAGS: ^Moore"),
    );
}

#[test]
fn sections() {
    refused(4, "^MAIN { INPUTS {} OUTPUTS {} }");
    refused(4, &after_info("MAIN { INPUTS {} ^}"));
    refused(4, &after_info("MAIN { OUTPUTS {} ^}"));
    refused(4, &after_info("MAIN { INPUTS {} OUTPUTS {} ^INPUTS {} }"));
    refused(
        4,
        &after_info("MAIN { INPUTS {} OUTPUTS {} ASSERT {} ^INVARIANTS {} }"),
    );
    refused(
        4,
        &after_info("MAIN { GUARANTEES {} INPUTS {} OUTPUTS {} ^GUARANTEE {} }"),
    );
    refused(
        4,
        &after_info("MAIN { ASSUME {} ^ASSUMPTIONS {} INPUTS {} OUTPUTS {} }"),
    );
    accepted(&after_info("GLOBAL {} MAIN { ASSUMPTIONS {} GUARANTEES {} INVARIANTS {} OUTPUTS {} PRESET {} INITIALLY {} REQUIRE {} INPUTS {} }"));
    accepted(&after_info(
        "GLOBAL { DEFINITIONS {} } MAIN { INPUTS {} OUTPUTS {} }",
    ));
    accepted(&after_info(
        "GLOBAL { PARAMETERS {} DEFINITIONS {} } MAIN { INPUTS {} OUTPUTS {} }",
    ));
    refused(
        4,
        &after_info("GLOBAL { DEFINITIONS {} ^PARAMETERS {} } MAIN { INPUTS {} OUTPUTS {} }"),
    );
    refused(
        4,
        &after_info("GLOBAL { PARAMETERS {} ^PARAMETERS {} } MAIN { INPUTS {} OUTPUTS {} }"),
    );
    refused(
        4,
        &after_info("GLOBAL {} ^GLOBAL {} MAIN { INPUTS {} OUTPUTS {} }"),
    );
    refused(4, &after_info("MAIN { INPUTS {} OUTPUTS {} } ^GLOBAL {}"));
    refused(
        4,
        &after_info("MAIN { INPUTS {} OUTPUTS {} ^PARAMETERS {} }"),
    );
}

#[test]
fn lists() {
    accepted(&lines("a; b; c"));
    accepted(&lines("a; b; c;"));
    refused(4, &lines("^;"));
    refused(4, &lines("a;^;"));
    refused(4, &lines("a ^b"));
    refused(4, &signals("x y^ z", ""));
    refused(4, &signals("x[1]^[2]", ""));
    refused(4, &signals("x^, y", ""));
    refused(4, &signals("^enum", ""));
    refused(4, &signals("x[^]", ""));
    refused(4, &parameters("n ^;", ""));
    refused(4, &parameters("^enum T = A: 0;", ""));
}

#[test]
fn words_of_the_format_are_no_names() {
    for word in second::token::FORMAT_WORDS {
        refused(4, &signals(&format!("x; ^{word}"), ""));
    }
    for word in [
        "Otherwise",
        "mealy",
        "STRICT",
        "Enum",
        "TRUE",
        "x",
        "_",
        "IMPLY",
        "INFO1",
    ] {
        accepted(&signals(word, ""));
    }
}

#[test]
fn enumerations() {
    accepted(&defined("enum T = A: 0B: 1", ""));
    accepted(&defined("enum T = A: 00, 01 B: 1*;", ""));
    refused(4, &defined("enum T = A: 0 ^1", ""));
    refused(4, &defined("enum T = A: 0/**/^1", ""));
    refused(4, &defined("enum T = ^;", ""));
    refused(4, &defined("enum T = A: ^;", ""));
    refused(4, &defined("enum T = A: 0, ^;", ""));
    refused(4, &defined("enum T = A: 0, ^B: 1", ""));
    refused(4, &defined("enum T = A: 0; B^: 1", ""));
    refused(4, &defined("enum T ^A: 0", ""));
    refused(4, &defined("enum ^= A: 0", ""));
}

#[test]
fn functions_and_patterns_are_refused() {
    refused(4, &defined("f^(x) = x", ""));
    refused(4, &lines("a^(b)"));
    refused(4, &lines("G a^(b)"));
    refused(4, &lines("a (*) ^;"));
    refused(4, &lines("a ^~ b"));
    refused(4, &lines("a ^: b"));
    refused(4, &lines("^otherwise"));
    refused(4, &lines("^~ a"));
}

#[test]
fn operands_and_levels() {
    refused(4, &lines("a == ^!b"));
    refused(4, &lines("1 == ^X b"));
    refused(4, &lines("1 IN ^NOT b"));
    refused(4, &lines("1 == ^&&[0<=i<2] b"));
    refused(4, &lines("1 + ^(+)[i IN {1}] {i}"));
    refused(4, &lines("1 * ^(*)[i IN {1}] {i}"));
    refused(4, &lines("MIN ^(+)[i IN {1}] {i} == 1"));
    refused(4, &lines("X[&&^] a"));
    refused(4, &lines("+ ^3"));
    refused(4, &lines("^PLUS 3"));
    refused(4, &lines("^- 3"));
    refused(4, &lines("^(\\) {}"));
    refused(4, &lines("a && ^"));
    refused(4, &lines("(^)"));
    refused(4, &lines("(a^"));
    refused(4, &lines("a^)"));
    refused(4, &lines("F[1^] a"));
    refused(4, &lines("G[1:2:^3] a").replace(":^3", "^:3"));
    refused(4, &lines("X[1^:2] a"));
    refused(4, &lines("X[^] a"));
    refused(4, &lines("!^[1] a"));
    refused(4, &lines("(v)^[0]"));
    refused(4, &lines("v[0]^[1]"));
    refused(4, &lines("{1 ^.. 3} == a"));
    refused(4, &lines("{1, 2, 3 ^.. 4} == a"));
    refused(4, &lines("{1, 2 .. 3^, 4} == a"));
    refused(4, &lines("{1, ^} == a"));
    refused(4, &lines("{^, 1} == a"));
    refused(4, &lines("SUM ^3"));
    refused(4, &lines("1 ^SUM 2"));
    refused(4, &lines("a ^FORALL b"));
    refused(4, &lines("a ^EXISTS b"));
    refused(4, &lines("1 ^PROD 2"));
    refused(4, &lines("^MUL[i IN {1}] i == 1"));
    refused(4, &lines("^PLUS[i IN {1}] i == 1"));
    refused(4, &lines("^SETMINUS[i IN {1}] {i}"));
    refused(4, &lines("^IMPLIES[i IN {1}] a"));
    refused(4, &lines("a ! ^b").replace("! ^b", "^! b"));
    refused(4, &lines("a!==^b").replace("!==^b", "!=^=b"));
}

#[test]
fn big_operators_brackets() {
    refused(4, &lines("&&[i^] a"));
    refused(4, &lines("&&[^] a"));
    refused(4, &lines("&&[i IN {1},^] a"));
    refused(4, &lines("&&[0 <= i^] a"));
    refused(4, &lines("&&[0 <= ^1 < 2] a"));
    refused(4, &lines("&&[0 ^> i > 2] a"));
    refused(4, &lines("&&[0 ^== i < 2] a"));
    refused(4, &lines("&&[0 < i ^>= 2] a"));
    refused(4, &lines("&&[0 < i < 2 ^< 3] a"));
    refused(4, &lines("&&[0 < i < 2 ^== 2] a"));
    refused(4, &lines("&&[^!a < i < 2] a"));
    refused(4, &lines("&&[(i) ^IN {1}] a"));
    refused(4, &lines("&&[1 ^IN {1}] a"));
    accepted(&lines("&&[(0) LE i LEQ 1 + 1 * 1, j ELEM {i}, k <- {j}] a"));
    accepted(&lines("&&[0<=i<2,j IN {}] a"));
}

#[test]
fn four_is_sought_over_the_whole_text_before_five() {
    let deep = "!".repeat(300);
    refused(4, &lines(&format!("{deep}a; b; c; ^)")));
    let open = "(".repeat(8000);
    refused(
        4,
        &format!("{}^", lines(&open).trim_end_matches(&[' ', '}'][..])),
    );
}

#[test]
fn two_and_three_beat_four() {
    refused(2, &format!("MAIN {} ^#", lines("a")));
    refused(2, &format!("{} x ^#", lines("a")));
    let text = format!("x {}", ";".repeat(8192));
    refused_at(3, 2 + 8191, text.as_bytes());
}

#[test]
fn precedence_of_numbers() {
    is_number("8/4/2", 4);
    is_number("6/2*3", 1);
    is_number("10-3-2", 5);
    is_number("7 % 4 % 3", 0);
    is_number("7 MOD 5 DIV 2", 1);
    is_number("2 + 3 * 4", 14);
    is_number("2 PLUS 3 MUL 4 MINUS 1", 13);
    is_number("+[i IN {1,2}] i * 3", 9);
    is_number("SUM[i IN {1,2}] i + 1", 4);
    is_number("PROD[i IN {2,3}] (i + 1)", 12);
    is_number("*[i IN {2,3}] +[j IN {i}] j", 6);
    is_number("MIN {2,3} * MAX {4,5}", 10);
    is_number("SIZE {1,2} + |{3}|", 3);
    is_number("SIZEOF v - 1", 2);
    is_number("(*[i IN {2}] i)", 2);
    is_number("SIZEOF (v)", 3);
}

#[test]
fn precedence_of_sets() {
    is_set("{1,2,3} (\\) {2} (\\) {2}", &[1, 2, 3]);
    is_set("{1,2} (-) {2} (*) {1,5}", &[1]);
    is_set("{1} (+) {2,3} (*) {3}", &[1, 3]);
    is_set("{1} CUP {2,3} CAP {3} SETMINUS {4}", &[1, 3]);
    is_set("(+)[i IN {1,2}] {i} (+) {7}", &[1, 2, 7]);
    is_set("(+)[i IN {1,2}] {i} (\\) {1}", &[2]);
    is_set("CUP[i IN {1,2}] {i + 1}", &[2, 3]);
    is_set("CAP[i IN {1,2}] {i, 9}", &[9]);
    is_set("(*)[i IN {1,2}] {i, 9} (*) {9, 1}", &[9]);
    is_set("{}", &[]);
    is_set("{1 + 1, 2 * 3}", &[2, 6]);
}

#[test]
fn precedence_of_formulas() {
    expands("a U b W c", "(s0 U (s1 W s2))");
    expands("a W b U c", "((s0 W s1) U s2)");
    expands("a R b R c", "((s0 R s1) R s2)");
    expands("a U b U c", "(s0 U (s1 U s2))");
    expands("a R b U c", "(s0 R (s1 U s2))");
    expands("a -> b <-> c", "(s0 -> (s1 <-> s2))");
    expands("a IMPLIES b EQUIV c", "(s0 -> (s1 <-> s2))");
    expands("a W b -> c", "(s0 W (s1 -> s2))");
    expands("a || b && c", "(s0 || (s1 && s2))");
    expands("a OR b AND c", "(s0 || (s1 && s2))");
    expands("a || b || c", "((s0 || s1) || s2)");
    expands("!a && X b U G c", "((!(s0) && X(s1)) U G(s2))");
    expands("NOT F 1 == 1 && a", "(!(F(true)) && s0)");
    expands("! 1 IN {1} || a", "(!(true) || s0)");
    expands("true |||{1}| == 1", "(true || true)");
    expands("&&[i IN {1}] a && b", "(s0 && s1)");
    expands("||[i IN {0,1}] a && b", "((s0 || s0) && s1)");
    expands("a && &&[i IN {0,1}] b", "(s0 && (s1 && s1))");
    expands("X[2] a && b", "(X(X(s0)) && s1)");
    expands("FORALL[0<=i<3] v[i]", "((s3 && s4) && s5)");
    expands("EXISTS[0<i<3] v[i]", "(s4 || s5)");
    expands("AND[0 LEQ i LE 2] a OR b", "((s0 && s0) || s1)");
    expands("1 LE 1", "false");
    expands("1 LEQ 1", "true");
    expands("1 GE 1", "false");
    expands("1 GEQ 1 && 1 GEG 1 && 1 >= 2", "((true && true) && false)");
    expands(
        "1 EQ 1 && 1 NEQ 1 && 1 /= 2 && 4/=2",
        "(((true && false) && true) && true)",
    );
    expands("1 ELEM {1} && 1<-{2}", "(true && false)");
    expands("1 < 2 && 2 <= 2 && 3 > 3", "((true && true) && false)");
}
