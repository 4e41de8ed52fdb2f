//! Texts at the limits: the most tokens, the most names in hostile spellings, the deepest.

use second::token;

const INFO: &str = "INFO{TITLE:\"\"DESCRIPTION:\"\"SEMANTICS:Mealy TARGET:Mealy";

const MAX_BYTES: usize = 32_768;

const MAX_TOKENS: usize = 8192;

/// Bytes that are names by themselves, and bytes that may follow in a name.
const STARTING: &[u8] = b"abcdefghijklmnopqrstuvwxyz_@";

const FOLLOWING: &[u8] = b"abcdefghijklmnopqrstuvwxyzABCDEFGHIJKLMNOPQRSTUVWXYZ_@0123456789'";

/// Lines of nine tokens each and some tags, together 8,192 tokens in nearly 32 KB.
pub fn most_tokens() -> Vec<u8> {
    let text = |lines: usize, tags: usize, end: &str| {
        let (lines, tags) = (
            "  (requested) -> F (granted);  //\n".repeat(lines),
            ",t".repeat(tags),
        );
        format!("{INFO} TAGS:t{tags}}}MAIN{{INPUTS{{requested{end}}}OUTPUTS{{granted}}ASSERT{{{lines}}}}}")
    };
    let count = |text: &str| token::scan(text.as_bytes()).map_or(0, |tokens| tokens.len());
    let spare = MAX_TOKENS - count(&text(0, 0, ""));
    let (lines, rest) = (spare / 9, spare % 9);
    let text = text(lines, rest / 2, ["", ";"][rest % 2]);
    assert!(count(&text) == MAX_TOKENS && text.len() <= MAX_BYTES);
    text.into_bytes()
}

/// 256 declared names of 60 bytes that differ in the last two, each used once.
pub fn alike_names() -> Vec<u8> {
    let name = |n: usize| {
        let mut bytes = b"one_of_the_many_signals_whose_names_tell_nothing_at_first_".to_vec();
        bytes.extend([FOLLOWING[n / 64], FOLLOWING[n % 64]]);
        String::from_utf8(bytes).expect("names are ASCII")
    };
    let signals: Vec<String> = (0..255).map(name).collect();
    let (declared, used) = (signals.join(";"), signals.join("||"));
    let last = name(255);
    let text = format!("{INFO}}}GLOBAL{{DEFINITIONS{{{last}=0}}}}MAIN{{INPUTS{{{declared}}}OUTPUTS{{}}ASSERT{{{last}==0;{used}}}}}");
    assert!(text.len() <= MAX_BYTES);
    text.into_bytes()
}

/// Tags against a tree of spellings that has the children of a spelling in a search tree by the bits of their bytes, lowest first: a name of 32 bytes that has, at
/// each byte, others before it that agree with it in one bit more each, and that name again and again.
pub fn crowded_spellings() -> Vec<u8> {
    let name = &[b'a'; 32][..];
    let mut tags = Vec::new();
    for length in 0..name.len() {
        let bytes = if length == 0 { STARTING } else { FOLLOWING };
        for shared in 0..8 {
            let agrees = |byte: &&u8| (**byte ^ name[length]).trailing_zeros() == shared;
            let other = bytes.iter().find(agrees);
            tags.extend(other.map(|byte| [&name[..length], &[*byte][..]].concat()));
        }
    }
    // 26 tokens besides the tags and the commas between them.
    tags.resize((MAX_TOKENS - 26) / 2, name.to_vec());
    let tags = String::from_utf8(tags.join(&b','));
    let tags = tags.expect("names are ASCII");
    let text = |tags: &str| format!("{INFO} TAGS:{tags}}}MAIN{{INPUTS{{r}}OUTPUTS{{g}}}}");
    let room = MAX_BYTES - text("").len();
    let end = tags[..room.min(tags.len())].rfind(',');
    text(&tags[..end.expect("a tag fits")]).into_bytes()
}

/// So many operators over each other, by way of definitions, which may have 256 levels each.
fn nested(count: usize, innermost: &str, operator: &str, line: &str) -> Vec<u8> {
    let mut definitions = format!("d0={innermost};");
    let mut done = 0;
    let mut last = 0;
    while done < count {
        let more = (count - done).min(254);
        definitions += &format!("d{}={}d{last};", last + 1, operator.repeat(more));
        (done, last) = (done + more, last + 1);
    }
    let line = line.replace('#', &format!("d{last}"));
    format!("{INFO}}}GLOBAL{{DEFINITIONS{{{definitions}}}}}MAIN{{INPUTS{{a}}OUTPUTS{{}}ASSERT{{{line}}}}}").into_bytes()
}

/// The deepest texts that the README tells to pass on the usual 8 MB of stack.
pub fn negations() -> Vec<u8> {
    nested(4000, "a", "!", "#")
}

pub fn divisions() -> Vec<u8> {
    nested(2000, "1", "1/", "#==1")
}
