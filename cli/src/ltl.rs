//! A formula as one line of LTL.

use crate::arguments::Syntax;
use crate::node::{self, *};

/// W and a tick write an operand twice, so that nested ones may grow without bound.
const MOST_BYTES: usize = 16 << 20;
const MOST_SHORT_BYTES: usize = 100;

/// What was written until then.
pub struct TooLong(pub String);

/// How a line is written: whose syntax, and the signal that stands in for X.
pub struct Style<'a> {
    pub syntax: Syntax,
    pub tick: Option<&'a str>,
}

enum Piece<'a> {
    Text(&'a str),
    /// A node as an operand of an operator: in parentheses if it is binary.
    Operand(usize),
    /// The left operand of `&&` or `||`: a chain of the same needs no parentheses.
    Chained(usize, u32),
    Whole(usize),
}

/// The last node's formula, without a line feed.
pub fn line(nodes: &[u32], names: &[String], style: &Style) -> Result<String, TooLong> {
    match nodes.len().checked_sub(1) {
        Some(root) => of_node(nodes, root, names, style, MOST_BYTES),
        None => Ok(String::new()),
    }
}

/// A node's formula for a message, cut where it is long.
pub fn short(nodes: &[u32], root: usize, names: &[String]) -> String {
    let style = Style {
        syntax: Syntax::Spot,
        tick: None,
    };
    match of_node(nodes, root, names, &style, MOST_SHORT_BYTES) {
        Ok(line) => line,
        Err(TooLong(line)) => {
            let start: String = line.chars().take(MOST_SHORT_BYTES - 3).collect();
            format!("{start}...")
        }
    }
}

fn of_node(nodes: &[u32], root: usize, names: &[String], style: &Style, most_bytes: usize) -> Result<String, TooLong> {
    let mut line = String::new();
    let mut rest = vec![Piece::Whole(root)];
    while let Some(piece) = rest.pop() {
        match piece {
            Piece::Text(text) => append(&mut line, text),
            Piece::Whole(number) => {
                let pieces = written(nodes[number], names, style);
                rest.extend(pieces.into_iter().rev());
            }
            Piece::Chained(number, kind) if node::kind(nodes[number]) == kind => rest.push(Piece::Whole(number)),
            Piece::Operand(number) | Piece::Chained(number, _) => {
                if is_written_bare(nodes[number], style) {
                    rest.push(Piece::Whole(number));
                } else {
                    rest.extend([Piece::Text(")"), Piece::Whole(number), Piece::Text("(")]);
                }
            }
        }
        if line.len() > most_bytes {
            return Err(TooLong(line));
        }
    }
    Ok(line)
}

// `!!` is an operator of SPIN's models.
fn append(line: &mut String, text: &str) {
    if line.ends_with('!') && text.starts_with('!') {
        line.push(' ');
    }
    line.push_str(text);
}

/// Whether what is written for a node is a leaf or begins with an operator that takes one operand.
fn is_written_bare(node: u32, style: &Style) -> bool {
    let plain = style.syntax == Syntax::Common;
    match kind(node) {
        TRUE | FALSE | SIGNAL | NOT => true,
        NEXT => style.tick.is_none(),
        GLOBALLY => true,
        FINALLY => !plain,
        RELEASE => plain,
        _ => false,
    }
}

fn written<'a>(node: u32, names: &'a [String], style: &Style<'a>) -> Vec<Piece<'a>> {
    use Piece::{Chained, Operand, Text};
    let (a, b) = (first(node), second(node));
    let infix = |sign| vec![Operand(a), Text(sign), Operand(b)];
    let chain = |sign| vec![Chained(a, kind(node)), Text(sign), Operand(b)];
    let prefix = |sign| vec![Text(sign), Operand(a)];
    match (kind(node), style.syntax) {
        (TRUE, Syntax::Smv) => vec![Text("TRUE")],
        (FALSE, Syntax::Smv) => vec![Text("FALSE")],
        (TRUE, _) => vec![Text("true")],
        (FALSE, _) => vec![Text("false")],
        (SIGNAL, _) => vec![Text(names.get(a).map_or("?", String::as_str))],
        (NOT, _) => prefix("!"),
        (AND, Syntax::Smv) => chain(" & "),
        (OR, Syntax::Smv) => chain(" | "),
        (AND, _) => chain(" && "),
        (OR, _) => chain(" || "),
        (IMPLIES, _) => infix(" -> "),
        (EQUIVALENT, _) => infix(" <-> "),
        (NEXT, _) => match style.tick {
            None => prefix("X "),
            Some(tick) => next_by_tick(a, tick),
        },
        (GLOBALLY, Syntax::Common) => vec![Text("!(true U !"), Operand(a), Text(")")],
        (GLOBALLY, Syntax::Spot | Syntax::Smv) => prefix("G "),
        (GLOBALLY, Syntax::Spin) => prefix("[] "),
        (FINALLY, Syntax::Common) => prefix("true U "),
        (FINALLY, Syntax::Spot | Syntax::Smv) => prefix("F "),
        (FINALLY, Syntax::Spin) => prefix("<> "),
        (UNTIL, _) => infix(" U "),
        (RELEASE, Syntax::Common) => vec![Text("!(!"), Operand(a), Text(" U !"), Operand(b), Text(")")],
        (RELEASE, Syntax::Spot) => infix(" R "),
        (RELEASE, Syntax::Spin | Syntax::Smv) => infix(" V "),
        (_, Syntax::Common) => {
            vec![
                Text("("),
                Operand(a),
                Text(" U "),
                Operand(b),
                Text(") || !(true U !"),
                Operand(a),
                Text(")"),
            ]
        }
        (_, Syntax::Spot) => infix(" W "),
        (_, Syntax::Spin) => vec![Text("("), Operand(a), Text(" U "), Operand(b), Text(") || [] "), Operand(a)],
        (_, Syntax::Smv) => vec![Text("("), Operand(a), Text(" U "), Operand(b), Text(") | G "), Operand(a)],
    }
}

// The tick differs between a position and the next one, so the first later position at which it has changed is the next one.
fn next_by_tick(a: usize, tick: &str) -> Vec<Piece<'_>> {
    use Piece::{Operand, Text};
    let up = [
        Text("("),
        Text(tick),
        Text(" && ("),
        Text(tick),
        Text(" U (!"),
        Text(tick),
        Text(" && "),
        Operand(a),
        Text(")))"),
    ];
    let down = [
        Text("(!"),
        Text(tick),
        Text(" && (!"),
        Text(tick),
        Text(" U ("),
        Text(tick),
        Text(" && "),
        Operand(a),
        Text(")))"),
    ];
    up.into_iter().chain([Text(" || ")]).chain(down).collect()
}

#[cfg(test)]
mod tests {
    use super::*;

    fn node(kind: u32, a: u32, b: u32) -> u32 {
        kind << 28 | a << 14 | b
    }

    fn written_as(nodes: &[u32], syntax: Syntax, tick: Option<&str>) -> String {
        let names = ["a".to_string(), "b".to_string()];
        line(nodes, &names, &Style { syntax, tick }).unwrap_or_default()
    }

    #[test]
    fn operators_in_each_syntax() {
        let leaves = [node(SIGNAL, 0, 0), node(SIGNAL, 1, 0)];
        let cases = [
            (GLOBALLY, "!(true U !a)", "G a", "[] a"),
            (FINALLY, "true U a", "F a", "<> a"),
            (NEXT, "X a", "X a", "X a"),
            (RELEASE, "!(!a U !b)", "a R b", "a V b"),
            (WEAK_UNTIL, "(a U b) || !(true U !a)", "a W b", "(a U b) || [] a"),
            (UNTIL, "a U b", "a U b", "a U b"),
            (EQUIVALENT, "a <-> b", "a <-> b", "a <-> b"),
        ];
        for (kind, common, spot, spin) in cases {
            let second = u32::from(is_binary(node(kind, 0, 0)));
            let nodes = [leaves[0], leaves[1], node(kind, 0, second)];
            assert_eq!(written_as(&nodes, Syntax::Common, None), common);
            assert_eq!(written_as(&nodes, Syntax::Spot, None), spot);
            assert_eq!(written_as(&nodes, Syntax::Spin, None), spin);
        }
    }

    #[test]
    fn parentheses_as_needed() {
        let mut nodes = vec![node(SIGNAL, 0, 0), node(SIGNAL, 1, 0)];
        nodes.extend([
            node(AND, 0, 1),
            node(AND, 2, 0),
            node(OR, 3, 1),
            node(NOT, 4, 0),
            node(FINALLY, 5, 0),
            node(NOT, 6, 0),
        ]);
        assert_eq!(written_as(&nodes, Syntax::Common, None), "!(true U !((a && b && a) || b))");
        assert_eq!(written_as(&nodes, Syntax::Spot, None), "!F !((a && b && a) || b)");
        let nodes = [nodes[0], node(NOT, 0, 0), node(NOT, 1, 0), node(GLOBALLY, 2, 0), node(NOT, 3, 0)];
        assert_eq!(written_as(&nodes, Syntax::Common, None), "! !(true U ! ! !a)");
    }

    #[test]
    fn next_with_a_tick() {
        let nodes = [node(SIGNAL, 0, 0), node(NEXT, 0, 0), node(NOT, 1, 0)];
        let expected = "!((t && (t U (!t && a))) || (!t && (!t U (t && a))))";
        assert_eq!(written_as(&nodes, Syntax::Spin, Some("t")), expected);
    }

    #[test]
    fn a_line_without_end_is_given_up() {
        let mut nodes = vec![node(SIGNAL, 0, 0)];
        nodes.extend((0..4000).map(|below| node(WEAK_UNTIL, below, 0)));
        let names = ["a".to_string()];
        assert!(line(
            &nodes,
            &names,
            &Style {
                syntax: Syntax::Common,
                tick: None
            }
        )
        .is_err());
        assert!(line(
            &nodes,
            &names,
            &Style {
                syntax: Syntax::Spot,
                tick: None
            }
        )
        .is_ok());
    }
}
