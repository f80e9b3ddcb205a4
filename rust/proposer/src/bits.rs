//! Masked bits and their values.

use reference::Pattern;

/// A pattern or a path as one word: the bytes' 64 bits and, above them, the 32
/// of the context.
#[derive(Clone, Copy, Default)]
pub struct Bits {
    pub mask: u128,
    pub value: u128,
}

/// Bits of the bytes and of the context.
pub const BYTE_BITS: u32 = u64::BITS;
pub const ALL_BITS: u32 = BYTE_BITS + u32::BITS;

impl From<&Pattern> for Bits {
    fn from(pattern: &Pattern) -> Bits {
        let join = |bytes: u64, context: u32| u128::from(context) << BYTE_BITS | u128::from(bytes);
        Bits {
            mask: join(pattern.byte_mask, pattern.context_mask),
            value: join(pattern.byte_value, pattern.context_value),
        }
    }
}

impl Bits {
    /// One more bit.
    pub fn with(self, bit: u32, one: bool) -> Bits {
        Bits {
            mask: self.mask | 1 << bit,
            value: self.value | u128::from(one) << bit,
        }
    }

    /// No bit has another value there.
    pub fn agrees(self, other: Bits) -> bool {
        (self.value ^ other.value) & self.mask & other.mask == 0
    }

    /// Every bit of the other is here, with its value.
    pub fn lies_inside(self, other: Bits) -> bool {
        other.mask & !self.mask == 0 && self.agrees(other)
    }
}

/// The numbers of a mask's bits, lowest first.
pub fn numbers(mut mask: u128) -> impl Iterator<Item = u32> {
    std::iter::from_fn(move || {
        let bit = mask.trailing_zeros();
        mask &= mask.wrapping_sub(1);
        (bit < u128::BITS).then_some(bit)
    })
}
