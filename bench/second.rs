//! The second converter, compiled for the benchmark from its own files: all but `stack`, so that no time goes into starting a thread for each call. Its caller has a deep stack.

#[path = "../second/src/answer.rs"]
pub mod answer;
#[path = "../second/src/basic.rs"]
pub mod basic;
#[path = "../second/src/enumeration.rs"]
pub mod enumeration;
#[path = "../second/src/expansion.rs"]
pub mod expansion;
#[path = "../second/src/formula.rs"]
pub mod formula;
#[path = "../second/src/limits.rs"]
pub mod limits;
#[path = "../second/src/names.rs"]
pub mod names;
#[path = "../second/src/node.rs"]
pub mod node;
#[path = "../second/src/parser/mod.rs"]
pub mod parser;
#[path = "../second/src/reader.rs"]
pub mod reader;
#[path = "../second/src/rewriter.rs"]
pub mod rewriter;
#[path = "../second/src/syntax.rs"]
pub mod syntax;
#[path = "../second/src/table.rs"]
pub mod table;
#[path = "../second/src/token.rs"]
pub mod token;
#[path = "../second/src/types.rs"]
pub mod types;
#[path = "../second/src/values/mod.rs"]
pub mod values;

pub mod stack {
    /// Runs the work where it is called.
    pub fn deep<T>(work: impl FnOnce() -> T) -> T {
        work()
    }
}
