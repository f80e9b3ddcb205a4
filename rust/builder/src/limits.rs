//! What a description has at most.

pub const FIELDS: usize = 256;
pub const NAMES: usize = 1024;
pub const CONSTRUCTORS: usize = 512;
pub const OPERANDS: usize = 2048;
pub const PIECES: usize = 4096;
pub const TEXT: usize = 8192;
pub const EXPRESSIONS: usize = 256;

pub const TABLES: usize = 64;
pub const CONSTRUCTOR_OPERANDS: usize = 8;
pub const CONSTRUCTOR_PIECES: usize = 16;

pub const TOKEN_BYTES: u8 = 4;
pub const NAMED_BITS: u32 = 8;
pub const PATTERN_BYTES: usize = 8;
pub const MINIMUM_LENGTH: u8 = 16;
pub const OFFSET: u8 = 15;
/// A text's length is one byte.
pub const RUN: usize = 255;
pub const STEPS: usize = 16;
pub const SHIFT: u8 = 63;
