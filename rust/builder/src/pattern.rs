//! Patterns.

use crate::limits;
use crate::refusal::{ensure, Refusal};

/// Masked bits of the bytes and of the context, and their values.
#[derive(Clone, Debug, Default)]
pub struct Pattern {
    /// Mask and value of each byte.
    bytes: [(u8, u8); limits::PATTERN_BYTES],
    context: (u32, u32),
    /// Where the next token starts.
    next: usize,
    /// Bytes up to the last one spoken of, masked or not.
    pub length: usize,
}

impl Pattern {
    /// Tokens as texts follow each other; the digits are in reading order.
    pub fn add_token(&mut self, text: &str, little: bool) -> Result<(), Refusal> {
        let mut token = token(text)?;
        if little {
            token.reverse();
        }
        for (mask, value) in token {
            self.add_byte(self.next, mask, value)?;
            self.next += 1;
        }
        Ok(())
    }

    pub fn add_byte(&mut self, at: usize, mask: u8, value: u8) -> Result<(), Refusal> {
        ensure!(
            mask == 0 || at < limits::PATTERN_BYTES,
            "a pattern has 8 bytes, and byte {at} is not among them"
        );
        ensure!(
            value & !mask == 0,
            "byte {at} has value {value:#04x} outside its mask {mask:#04x}"
        );
        if let Some(byte) = self.bytes.get_mut(at) {
            ensure!(
                byte.0 & mask == 0,
                "a bit of byte {at} of the pattern is given twice"
            );
            *byte = (byte.0 | mask, byte.1 | value);
        }
        self.length = self.length.max(at.saturating_add(1));
        Ok(())
    }

    pub fn add_context(&mut self, mask: u32, value: u32) -> Result<(), Refusal> {
        ensure!(
            value & !mask == 0,
            "the context has value {value:#x} outside its mask {mask:#x}"
        );
        ensure!(
            self.context.0 & mask == 0,
            "a bit of the context is given twice"
        );
        self.context = (self.context.0 | mask, self.context.1 | value);
        Ok(())
    }

    /// Bytes up to the last one with a masked bit.
    pub fn masked_length(&self) -> usize {
        let last = self.bytes.iter().rposition(|(mask, _)| *mask != 0);
        last.map_or(0, |last| last + 1)
    }

    /// The 24 bytes of the four words in a constructor's record.
    pub fn record(&self) -> Vec<u8> {
        let masks = self.bytes.iter().map(|byte| byte.0);
        let values = self.bytes.iter().map(|byte| byte.1);
        let (context_mask, context_value) = self.context;
        masks
            .chain(values)
            .chain(context_mask.to_le_bytes())
            .chain(context_value.to_le_bytes())
            .collect()
    }
}

/// Mask and value of each byte of a text of bits, highest first. Blanks are
/// for the reader; letters and dots are bits that the pattern leaves open.
fn token(text: &str) -> Result<Vec<(u8, u8)>, Refusal> {
    let mut bits = Vec::new();
    for character in text.chars() {
        match character {
            ' ' => {}
            '0' => bits.push((1, 0)),
            '1' => bits.push((1, 1)),
            '.' | 'a'..='z' | 'A'..='Z' => bits.push((0, 0)),
            _ => ensure!(false, "{character:?} in the bits {text:?}"),
        }
    }
    ensure!(
        bits.len().is_multiple_of(8),
        "{} bits in {text:?} are no whole bytes",
        bits.len()
    );
    let join = |(mask, value), bit: &(u8, u8)| (mask << 1 | bit.0, value << 1 | bit.1);
    let byte = |bits: &[(u8, u8)]| bits.iter().fold((0, 0), join);
    Ok(bits.chunks(8).map(byte).collect())
}
