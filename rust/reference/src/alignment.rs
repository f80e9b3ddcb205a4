//! At which addresses a sweep or a listing looks for instructions.

use crate::answer::Refusal;
use crate::decode::{decode_instruction, Decoded};
use crate::description::Description;

/// What these addresses are multiples of.
#[derive(Clone, Copy, Debug, PartialEq, Eq)]
pub enum Alignment {
    One = 1,
    Two = 2,
    Four = 4,
    Eight = 8,
}

impl TryFrom<u32> for Alignment {
    type Error = Refusal;

    fn try_from(number: u32) -> Result<Alignment, Refusal> {
        match number {
            1 => Ok(Alignment::One),
            2 => Ok(Alignment::Two),
            4 => Ok(Alignment::Four),
            8 => Ok(Alignment::Eight),
            _ => Err(Refusal::NoAlignment { number }),
        }
    }
}

impl Alignment {
    /// Decodes the instruction at the start of the rest, if this address of it
    /// is a multiple.
    pub fn decode(
        self,
        description: &Description,
        context: u32,
        address: u64,
        rest: &[u8],
    ) -> Result<Decoded, Refusal> {
        match address.is_multiple_of(self as u64) {
            true => decode_instruction(description, context, address, rest),
            false => Err(Refusal::NoMultiple),
        }
    }

    /// The bytes of a gap at this address: to the next multiple after it, or to
    /// the end of the rest.
    pub fn gap(self, address: u64, rest: &[u8]) -> &[u8] {
        let next = (address + 1).next_multiple_of(self as u64);
        let length = (next - address) as usize;
        &rest[..length.min(rest.len())]
    }
}
