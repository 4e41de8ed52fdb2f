//! Document 01: 'Limits'.

/// Bytes of a text.
pub const TEXT_BYTES: usize = 32_768;
/// Tokens of a text.
pub const TOKENS: usize = 8_192;
/// Bytes of a name.
pub const NAME_BYTES: usize = 64;
/// Declared names (big operators' names not counted).
pub const DECLARED_NAMES: usize = 256;
/// Levels of an expression tree.
pub const TREE_LEVELS: usize = 256;
/// Elements of a set.
pub const SET_ELEMENTS: usize = 256;
/// Width of a bus.
pub const BUS_WIDTH: u32 = 255;
/// Signals, counted in bits.
pub const SIGNALS: usize = 255;
/// Nodes of a table.
pub const NODES: usize = 8_192;
/// Words of an enumeration.
pub const ENUMERATION_WORDS: usize = 16;
/// Marks of a word.
pub const WORD_MARKS: usize = 8;
/// Largest value of a number.
pub const LARGEST_NUMBER: u32 = 1_000_000;
/// Bytes of the reader's work buffer.
pub const WORK_BYTES: usize = 65_536;
/// Positions of a recording.
pub const POSITIONS: usize = 2_048;
