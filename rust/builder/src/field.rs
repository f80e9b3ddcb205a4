//! Fields.

use crate::limits;
use crate::refusal::{ensure, sound_text, Refusal};

/// A run of bits of a token of the instruction, or of the context, and how its
/// value is shown: as an unsigned decimal number until a method says else.
#[derive(Clone, Debug)]
pub struct Field {
    pub(crate) source: Source,
    pub(crate) low: u8,
    pub(crate) high: u8,
    pub(crate) look: Look,
}

#[derive(Clone, Copy, Debug, PartialEq, Eq)]
pub(crate) enum Source {
    Little(u8),
    Big(u8),
    Context,
}

#[derive(Clone, Debug)]
pub(crate) enum Look {
    UnsignedDecimal,
    SignedDecimal,
    UnsignedHex,
    SignedHex,
    /// A name for each value; nothing for a hole.
    Names(Vec<Option<String>>),
}

impl Field {
    /// All bits of a token of so many bytes, the lowest byte first.
    pub fn little(bytes: u8) -> Field {
        Field::new(Source::Little(bytes))
    }

    /// All bits of a token of so many bytes, the highest byte first.
    pub fn big(bytes: u8) -> Field {
        Field::new(Source::Big(bytes))
    }

    /// All bits of the context.
    pub fn context() -> Field {
        Field::new(Source::Context)
    }

    fn new(source: Source) -> Field {
        Field {
            source,
            low: 0,
            high: source.bytes().saturating_mul(8).saturating_sub(1),
            look: Look::UnsignedDecimal,
        }
    }

    /// The bits from `low` to `high`, both included; bit 0 is the lowest.
    pub fn bits(self, low: u8, high: u8) -> Field {
        Field { low, high, ..self }
    }

    /// Shown as a decimal number with the highest bit as sign.
    pub fn signed(self) -> Field {
        self.look(Look::SignedDecimal)
    }

    /// Shown as `0xfe`.
    pub fn hex(self) -> Field {
        self.look(Look::UnsignedHex)
    }

    /// Shown as `-0x2`, with the highest bit as sign.
    pub fn signed_hex(self) -> Field {
        self.look(Look::SignedHex)
    }

    /// Shown by a name for each value, from 0 on.
    pub fn names<T: Into<String>>(self, names: impl IntoIterator<Item = T>) -> Field {
        self.names_or_holes(names.into_iter().map(Some))
    }

    /// Shown by a name for each value; `None` is a hole, a value that no
    /// instruction may have.
    pub fn names_or_holes<T: Into<String>>(
        self,
        names: impl IntoIterator<Item = Option<T>>,
    ) -> Field {
        let names = names.into_iter().map(|name| name.map(Into::into));
        self.look(Look::Names(names.collect()))
    }

    fn look(self, look: Look) -> Field {
        Field { look, ..self }
    }

    pub(crate) fn is_context(&self) -> bool {
        self.source == Source::Context
    }

    pub(crate) fn judge(&self) -> Result<(), Refusal> {
        let bytes = self.source.bytes();
        ensure!(
            (1..=limits::TOKEN_BYTES).contains(&bytes),
            "a token has 1 to 4 bytes, not {bytes}"
        );
        let (low, high) = (self.low, self.high);
        ensure!(
            low <= high,
            "the low bit {low} is above the high bit {high}"
        );
        let highest = 8 * bytes - 1;
        ensure!(
            high <= highest,
            "bit {high} is above the highest, {highest}"
        );
        match &self.look {
            Look::Names(names) => self.judge_names(names),
            _ => Ok(()),
        }
    }

    fn judge_names(&self, names: &[Option<String>]) -> Result<(), Refusal> {
        let bits = u32::from(self.high - self.low) + 1;
        ensure!(
            bits <= limits::NAMED_BITS,
            "names are for at most 8 bits, not {bits}"
        );
        let (given, needed) = (names.len(), 1 << bits);
        ensure!(
            given == needed,
            "{given} names, and the field has {needed} values"
        );
        for (value, name) in names.iter().enumerate() {
            let Some(name) = name else { continue };
            ensure!(
                !name.is_empty(),
                "the name of {value} is empty; a hole is None"
            );
            sound_text(name).map_err(|refusal| refusal.of(format!("the name of {value}")))?;
        }
        Ok(())
    }

    /// Its record, with the number of its first name.
    pub(crate) fn record(&self, first_name: usize) -> [u8; 8] {
        let (source, order) = match self.source {
            Source::Little(_) => (0, 0),
            Source::Big(_) => (0, 1),
            Source::Context => (1, 0),
        };
        let look = match self.look {
            Look::UnsignedDecimal => 0,
            Look::SignedDecimal => 1,
            Look::UnsignedHex => 2,
            Look::SignedHex => 3,
            Look::Names(_) => 4,
        };
        let bytes = self.source.bytes();
        let [first_0, first_1] = (first_name as u16).to_le_bytes();
        [
            source, bytes, order, self.low, self.high, look, first_0, first_1,
        ]
    }
}

impl Source {
    fn bytes(self) -> u8 {
        match self {
            Source::Little(bytes) | Source::Big(bytes) => bytes,
            Source::Context => 4,
        }
    }
}
