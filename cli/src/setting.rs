//! `--set n=4`: a parameter's value replaced before the library reads the text. Places are told in the text as it was written.

use crate::batch::{Changed, Written};
use crate::near;
use crate::outline;
use std::ops::Range;

/// A part of the written text and what stands for it.
struct Edit {
    written: Range<usize>,
    length: usize,
}

/// The text with its parameters set, or as it is if none is to be.
pub fn apply(set: &[(String, u32)], text: Vec<u8>) -> Result<Changed, String> {
    if set.is_empty() {
        Ok(Changed::not(text))
    } else {
        changed(set, text)
    }
}

fn changed(set: &[(String, u32)], written: Vec<u8>) -> Result<Changed, String> {
    let outline = outline::of(&written);
    let parameters = outline.statements.iter().filter(|statement| statement.section == "PARAMETERS");
    let mut found: Vec<(String, Range<usize>)> = Vec::new();
    for statement in parameters {
        if let [name, _, value @ ..] = &outline.tokens[statement.tokens.clone()] {
            if let (Some(first), Some(last)) = (value.first(), value.last()) {
                found.push((name.shown(&written), first.start..last.end));
            }
        }
    }
    if let Some((name, _)) = set.iter().find(|(name, _)| !found.iter().any(|(known, _)| known == name)) {
        let near = near::nearest(name, found.iter().map(|(known, _)| known.as_str()));
        let hint = near.map_or(String::new(), |near| format!(": did you mean {near}?"));
        return Err(format!("--set {name}: the text has no such parameter{hint}"));
    }
    let mut text = Vec::new();
    let mut edits = Vec::new();
    let mut at = 0;
    for (name, value) in &found {
        if let Some((_, number)) = set.iter().rev().find(|(wanted, _)| wanted == name) {
            text.extend_from_slice(&written[at..value.start]);
            text.extend_from_slice(number.to_string().as_bytes());
            at = value.end;
            edits.push(Edit {
                written: value.clone(),
                length: number.to_string().len(),
            });
        }
    }
    text.extend_from_slice(&written[at..]);
    Ok(Changed {
        text,
        was: Some(Written {
            text: written,
            place: Box::new(move |place| place_in_written(&edits, place)),
        }),
    })
}

fn place_in_written(edits: &[Edit], place: usize) -> usize {
    let (mut new, mut old) = (0, 0);
    for edit in edits {
        let before = edit.written.start - old;
        if place < new + before {
            break;
        }
        new += before;
        old = edit.written.start;
        if place < new + edit.length {
            return old;
        }
        new += edit.length;
        old = edit.written.end;
    }
    old + (place - new)
}

#[cfg(test)]
mod tests {
    use super::*;
    use crate::formula::Refusal;

    #[test]
    fn values_are_replaced_and_places_kept() {
        let text = b"GLOBAL { PARAMETERS { n = 2; long = n * (n + 1); } } MAIN { q }".to_vec();
        let set = [("long".to_string(), 7), ("n".to_string(), 1000)];
        let changed = changed(&set, text.clone()).ok().expect("both are there");
        assert_eq!(changed.text, b"GLOBAL { PARAMETERS { n = 1000; long = 7; } } MAIN { q }");
        let written = |place: usize| changed.written(Refusal { number: 6, place }).1.place;
        for (place, byte) in changed.text.iter().enumerate() {
            let there = written(place);
            assert!(text[there] == *byte || byte.is_ascii_digit(), "{place}");
        }
        assert_eq!(written(changed.text.len()), text.len());
        let missing = super::changed(&[("m".to_string(), 1)], text);
        assert!(missing.is_err());
    }
}
