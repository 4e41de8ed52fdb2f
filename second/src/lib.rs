//! A second converter from TLSF v1.1 to LTL nodes, written from the papers and the readings of `docs/READINGS.md`.
//!
//! Document 01 is the authority; comments name the rule that a function follows,
//! either by a sentence of document 01 or by a reading's letter and number (T5, G12).

pub mod answer;
pub mod basic;
pub mod converter;
pub mod corpus;
pub mod diagnosis;
pub mod enumeration;
pub mod evaluator;
pub mod expansion;
pub mod formula;
pub mod generate;
pub mod limits;
pub mod listing;
pub mod meaning;
pub mod names;
pub mod node;
pub mod parser;
pub mod reach;
pub mod reader;
pub mod recording;
pub mod rewriter;
pub mod stack;
pub mod syntax;
pub mod table;
pub mod token;
pub mod types;
pub mod values;
