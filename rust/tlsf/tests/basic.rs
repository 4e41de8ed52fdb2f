//! Basic texts: document 01's file written and read back, names at fault, rooms.

use tlsf::{Answer, Signal, Written, MOST_NODES, MOST_SIGNALS, WORK_BYTES};

const INFO: &str = "INFO { TITLE: \"t\" DESCRIPTION: \"d\" SEMANTICS: Mealy TARGET: Mealy } ";
const FILE: &str = "MAIN { INPUTS { r; } OUTPUTS { g; } GUARANTEE { G (r -> F g); } }";

const BASIC: &str = "INFO { TITLE : \"converted\" DESCRIPTION : \"converted\" SEMANTICS : Mealy TARGET : Mealy } \
MAIN { INPUTS { r ; } OUTPUTS { g ; } GUARANTEE { ( ( true ) -> ( ( true ) && ( ( ( G ( true ) ) && ( true ) ) -> ( ( G ( true ) ) && \
( G ( ( r ) -> ( F ( g ) ) ) ) ) ) ) ) ; } }";

fn write(main: &str, room: usize) -> (Written, Vec<u8>) {
    let (mut work, mut out) = (vec![1; WORK_BYTES], vec![7; room]);
    let written = tlsf::write_basic(format!("{INFO}{main}").as_bytes(), &mut work, &mut out);
    assert!(work.iter().all(|&b| b == 0));
    (written, out)
}

fn read(text: &[u8]) -> (Answer, Vec<u32>, Vec<u32>) {
    let (mut nodes, mut signals) = (vec![0; MOST_NODES], vec![0; MOST_SIGNALS]);
    let answer = tlsf::read(text, &mut [0; WORK_BYTES], &mut nodes, &mut signals);
    (answer, nodes, signals)
}

#[test]
fn the_file_is_written_and_read_back() {
    let (written, out) = write(FILE, 300);
    assert_eq!(written, Written::Bytes(266));
    assert_eq!(out[..266], *BASIC.as_bytes());
    assert!(out[266..].iter().all(|&b| b == 7));
    let (answer, nodes, signals) = read(&out[..266]);
    assert_eq!(answer, Answer::Accepted { nodes: 29, signals: 2 });
    let (_, source, _) = read(format!("{INFO}{FILE}").as_bytes());
    for (node, word) in source[..17].iter().enumerate() {
        // an operand's number is 8 more, a signal's is not
        let by = match word >> 28 {
            0..=2 => 0,
            3 | 8..=10 => 8 << 14,
            _ => (8 << 14) + 8,
        };
        assert_eq!(nodes[8 + node], word + by);
    }
    assert_eq!(Signal::of(signals[0]).name(&out[..266]), b"r");
    assert!(Signal::of(signals[1]).output);
}

#[test]
fn a_bus_is_written_bit_by_bit() {
    let (written, out) = write("MAIN { INPUTS { } OUTPUTS { b[11]; } GUARANTEE { b[10]; } }", 1000);
    let Written::Bytes(bytes) = written else {
        panic!("{written:?}");
    };
    let text = String::from_utf8(out[..bytes].to_vec()).unwrap();
    assert!(text.contains("INPUTS { } OUTPUTS { b@0 ; b@1 ;"), "{text}");
    assert!(text.contains("b@9 ; b@10 ; } GUARANTEE {"), "{text}");
    assert!(text.contains("( b@10 )"), "{text}");
    assert_eq!(read(text.as_bytes()).0, Answer::Accepted { nodes: 25, signals: 11 });
}

#[test]
fn names_that_cannot_be_written() {
    for (main, place) in [
        ("MAIN { INPUTS { b@0; b[1]; } OUTPUTS { } }", 1),
        ("MAIN { INPUTS { b[1]; b@0; } OUTPUTS { } }", 1),
        ("MAIN { OUTPUTS { b[2]; } INPUTS { a; b@1; } }", 3),
    ] {
        let (written, out) = write(main, 0);
        assert_eq!(written, Written::Refused { number: 22, place });
        assert!(out.is_empty());
    }
    let long = format!("MAIN {{ INPUTS {{ {}[1]; }} OUTPUTS {{ }} }}", "n".repeat(63));
    assert_eq!(write(&long, 1000).0, Written::Refused { number: 22, place: 0 });
    let bus = format!("MAIN {{ INPUTS {{ {}[11]; }} OUTPUTS {{ }} }}", "n".repeat(62));
    assert_eq!(write(&bus, 10_000).0, Written::Refused { number: 22, place: 10 });
}

#[test]
fn a_refusal_changes_nothing() {
    let (written, out) = write(FILE, 265);
    assert_eq!(written, Written::Refused { number: 18, place: 0 });
    assert!(out.iter().all(|&b| b == 7));
    assert_eq!(write(FILE, 266).0, Written::Bytes(266));
    let (written, out) = write("MAIN { }", 300);
    assert!(matches!(written, Written::Refused { number: 4, .. }));
    assert!(out.iter().all(|&b| b == 7));
    let (mut work, mut out) = (vec![1; WORK_BYTES - 1], vec![7; 300]);
    let written = tlsf::write_basic(format!("{INFO}{FILE}").as_bytes(), &mut work, &mut out);
    assert_eq!(written, Written::Refused { number: 17, place: 0 });
    assert!(work.iter().all(|&b| b == 1) && out.iter().all(|&b| b == 7));
}
