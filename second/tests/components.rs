//! Document 001's components without functions.

mod common;
use common::*;
use second::corpus::components::{burst, decode, incremental, shift, single};

#[test]
fn components_are_accepted() {
    let root = |text: &str| {
        let nodes = accepted(text).nodes;
        infix(&nodes, nodes.len() - 1)
    };
    assert_eq!(accepted(&decode()).signals.len(), 5);
    // 00, 10 and 01 leave 11 unnamed: an implied line in REQUIRE.
    assert!(root(&decode()).contains("G((((!(s0) && !(s1)) || (s0 && !(s1))) || (!(s0) && s1)))"));
    assert_eq!(
        root(&shift()),
        "(true -> (true && ((G(true) && true) -> (G(((s0 -> (X(s2) <-> s1)) && \
         (!(s0) -> (X(s2) <-> s2)))) && true))))"
    );
    accepted(&single());
    accepted(&burst());
    assert!(root(&single()).contains("((s4 && X(s3)) -> X((!(s4) && X(!(s4)))))"));
}

#[test]
fn incremental_as_printed_lacks_a_signal() {
    refused(6, &incremental("^READY"));
    accepted(&incremental("READY1"));
}
