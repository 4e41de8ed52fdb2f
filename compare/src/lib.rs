//! The proved library, through its C interface, beside the second converter.

pub mod answers;
pub mod arguments;
pub mod case;
pub mod diagnosing;
pub mod evaluation;
pub mod faults;
pub mod lent;
pub mod library;
pub mod long;
pub mod meaning;
pub mod progress;
pub mod reach;
pub mod reading;
pub mod rewriting;
pub mod rooms;
pub mod run;
pub mod self_test;
pub mod spoils;
pub mod texts;
pub mod words;
pub mod writing;
