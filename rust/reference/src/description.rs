//! The records of a description, member for member as the file has them.

use std::ops::Range;

use crate::expression::Expression;

/// A run of bits of the instruction or of the context.
#[derive(Clone, Copy, Debug, PartialEq, Eq)]
pub struct Field {
    pub source: u8,
    pub width: u8,
    pub order: u8,
    pub low: u8,
    pub high: u8,
    pub look: u8,
    pub first_name: u16,
}

impl Field {
    pub const INSTRUCTION: u8 = 0;
    pub const CONTEXT: u8 = 1;

    pub const LITTLE: u8 = 0;
    pub const BIG: u8 = 1;

    pub const UNSIGNED_DECIMAL: u8 = 0;
    pub const SIGNED_DECIMAL: u8 = 1;
    pub const UNSIGNED_HEX: u8 = 2;
    pub const SIGNED_HEX: u8 = 3;
    pub const NAMES: u8 = 4;

    pub fn is_context(&self) -> bool {
        self.source == Field::CONTEXT
    }

    pub fn is_signed(&self) -> bool {
        matches!(self.look, Field::SIGNED_DECIMAL | Field::SIGNED_HEX)
    }

    /// Number of bits, for low ≤ high.
    pub fn bits(&self) -> u32 {
        u32::from(self.high) - u32::from(self.low) + 1
    }
}

/// A run of the text; a hole where the length is 0.
#[derive(Clone, Copy, Debug, PartialEq, Eq)]
pub struct Name {
    pub text_offset: u16,
    pub length: u8,
}

/// Masked bits and their values. Bit 8i + b of the byte words is bit b of
/// byte i from the constructor's start.
#[derive(Clone, Copy, Debug, Default, PartialEq, Eq, Hash)]
pub struct Pattern {
    pub byte_mask: u64,
    pub byte_value: u64,
    pub context_mask: u32,
    pub context_value: u32,
}

impl Pattern {
    /// Number of masked bits.
    pub fn weight(&self) -> u32 {
        self.byte_mask.count_ones() + self.context_mask.count_ones()
    }

    /// Bytes up to the last one with a masked bit.
    pub fn masked_length(&self) -> u32 {
        (u64::BITS - self.byte_mask.leading_zeros()).div_ceil(8)
    }

    /// Every bit masked in `other` is masked here with the same value.
    pub fn lies_inside(&self, other: &Pattern) -> bool {
        other.byte_mask & !self.byte_mask == 0
            && other.context_mask & !self.context_mask == 0
            && self.overlaps(other)
    }

    /// Some bytes and context match both.
    pub fn overlaps(&self, other: &Pattern) -> bool {
        let bytes = (self.byte_value ^ other.byte_value) & self.byte_mask & other.byte_mask;
        let context =
            (self.context_value ^ other.context_value) & self.context_mask & other.context_mask;
        bytes == 0 && context == 0
    }

    /// What matches both of two overlapping patterns.
    pub fn overlap(&self, other: &Pattern) -> Pattern {
        Pattern {
            byte_mask: self.byte_mask | other.byte_mask,
            byte_value: self.byte_value | other.byte_value,
            context_mask: self.context_mask | other.context_mask,
            context_value: self.context_value | other.context_value,
        }
    }
}

#[derive(Clone, Copy, Debug, PartialEq, Eq)]
pub struct Constructor {
    pub table: u8,
    pub minimum_length: u8,
    pub pattern: Pattern,
    pub operand_count: u8,
    pub first_operand: u16,
    pub piece_count: u8,
    pub first_piece: u16,
}

impl Constructor {
    pub fn operand_range(&self) -> Range<usize> {
        let first = usize::from(self.first_operand);
        first..first + usize::from(self.operand_count)
    }

    pub fn piece_range(&self) -> Range<usize> {
        let first = usize::from(self.first_piece);
        first..first + usize::from(self.piece_count)
    }
}

#[derive(Clone, Copy, Debug, PartialEq, Eq)]
pub struct Operand {
    pub kind: u8,
    pub index: u8,
    pub anchor: u8,
    pub offset: u8,
}

impl Operand {
    pub const FIELD: u8 = 0;
    pub const TABLE: u8 = 1;
    /// By an expression.
    pub const COMPUTED: u8 = 2;
}

/// A part of what a constructor shows.
#[derive(Clone, Copy, Debug, PartialEq, Eq)]
pub struct Piece {
    pub kind: u8,
    pub n: u8,
    pub text_offset: u16,
}

impl Piece {
    pub const TEXT: u8 = 0;
    pub const OPERAND: u8 = 1;
}

/// The seven sections; without expressions the last may be absent. The
/// functions that ask or decode rely on what `check` makes sure of.
#[derive(Clone, Debug, Default, PartialEq, Eq)]
pub struct Description {
    pub fields: Vec<Field>,
    pub names: Vec<Name>,
    pub constructors: Vec<Constructor>,
    pub operands: Vec<Operand>,
    pub pieces: Vec<Piece>,
    pub text: Vec<u8>,
    pub expressions: Vec<Expression>,
}

impl Description {
    /// The table that a walk starts with.
    pub fn root(&self) -> u32 {
        self.constructors.last().map_or(0, |c| u32::from(c.table))
    }

    /// Record numbers of a table's constructors, which stand together;
    /// nothing if there are none.
    pub fn table(&self, number: u32) -> Option<Range<usize>> {
        let start = self
            .constructors
            .partition_point(|c| u32::from(c.table) < number);
        let end = self
            .constructors
            .partition_point(|c| u32::from(c.table) <= number);
        (start < end).then_some(start..end)
    }

    pub fn operands_of(&self, constructor: &Constructor) -> &[Operand] {
        &self.operands[constructor.operand_range()]
    }

    pub fn pieces_of(&self, constructor: &Constructor) -> &[Piece] {
        &self.pieces[constructor.piece_range()]
    }

    pub fn text_at(&self, offset: u16, length: u8) -> &[u8] {
        &self.text[usize::from(offset)..][..usize::from(length)]
    }
}
