//! Constructors and operands.

use crate::expression::Expression;
use crate::limits;
use crate::pattern::Pattern;
use crate::refusal::{ensure, Refusal};

/// A pattern, operands and what is shown.
#[derive(Clone, Debug)]
pub struct Constructor {
    pub(crate) shows: String,
    pub(crate) operands: Vec<Operand>,
    minimum: Option<u8>,
    /// Or the first thing that is wrong with it.
    pattern: Result<Pattern, Refusal>,
}

impl Constructor {
    /// What it shows: text, with operands in braces by name. A name that
    /// [`Constructor::operand`] has not introduced is a field or a table at the
    /// constructor's start. `{{` and `}}` are braces.
    pub fn new(shows: &str) -> Constructor {
        Constructor {
            shows: shows.to_string(),
            operands: Vec::new(),
            minimum: None,
            pattern: Ok(Pattern::default()),
        }
    }

    /// The bits of the next bytes, in the order of the instruction's bytes,
    /// each byte's highest bit first: `"0001 rrrr"`. Letters and dots are left
    /// open; they and blanks are for the reader.
    pub fn bytes(self, bits: &str) -> Constructor {
        self.add(|pattern| pattern.add_token(bits, false))
    }

    /// The bits of a token of which the lowest byte comes first, written with
    /// the highest bit first, as manuals do: `"0000 11rd dddd rrrr"`.
    pub fn little(self, bits: &str) -> Constructor {
        self.add(|pattern| pattern.add_token(bits, true))
    }

    /// Masked bits of the byte so many after the constructor's start.
    pub fn masked(self, byte: usize, mask: u8, value: u8) -> Constructor {
        self.add(|pattern| pattern.add_byte(byte, mask, value))
    }

    /// Masked bits of the context.
    pub fn context(self, mask: u32, value: u32) -> Constructor {
        self.add(|pattern| pattern.add_context(mask, value))
    }

    fn add(mut self, add: impl FnOnce(&mut Pattern) -> Result<(), Refusal>) -> Constructor {
        self.pattern = self.pattern.and_then(|mut pattern| {
            add(&mut pattern)?;
            Ok(pattern)
        });
        self
    }

    /// The minimum length, where it is not the bytes that the pattern speaks of.
    pub fn minimum(self, bytes: u8) -> Constructor {
        Constructor {
            minimum: Some(bytes),
            ..self
        }
    }

    /// An operand, after those before. Only one that stands elsewhere than at
    /// the start, that is computed, not shown or in another order needs this.
    pub fn operand(mut self, operand: Operand) -> Constructor {
        self.operands.push(operand);
        self
    }

    /// The sound pattern and minimum length.
    pub(crate) fn judge_pattern(&self) -> Result<(&Pattern, u8), Refusal> {
        let pattern = self.pattern.as_ref().map_err(Refusal::clone)?;
        let spoken_of = u8::try_from(pattern.length).unwrap_or(u8::MAX);
        let minimum = self.minimum.unwrap_or(spoken_of);
        ensure!(
            minimum <= limits::MINIMUM_LENGTH,
            "a minimum length of {minimum}, and 16 is the most"
        );
        let masked = pattern.masked_length();
        ensure!(
            masked <= usize::from(minimum),
            "a minimum length of {minimum}, and the pattern has bits of byte {}",
            masked - 1
        );
        Ok((pattern, minimum))
    }
}

/// A field or table as part of a constructor, and where it starts; or a number
/// that is computed.
#[derive(Clone, Debug)]
pub struct Operand {
    pub(crate) of: Of,
    pub(crate) name: String,
    pub(crate) after: Option<String>,
    pub(crate) offset: u8,
}

#[derive(Clone, Debug)]
pub(crate) enum Of {
    /// A field or a table.
    Named(String),
    Computed(Expression),
}

impl Operand {
    /// The field or table of this name, at the constructor's start.
    pub fn new(of: &str) -> Operand {
        Operand::named_of(of, Of::Named(of.to_string()))
    }

    /// What this expression comes to, shown as `-0x2`. It takes no bytes and
    /// has no place in the instruction.
    pub fn computed(name: &str, expression: Expression) -> Operand {
        Operand::named_of(name, Of::Computed(expression))
    }

    fn named_of(name: &str, of: Of) -> Operand {
        Operand {
            of,
            name: name.to_string(),
            after: None,
            offset: 0,
        }
    }

    /// What its expression names.
    pub(crate) fn fields(&self) -> impl Iterator<Item = &str> {
        let expression = match &self.of {
            Of::Named(_) => None,
            Of::Computed(expression) => Some(expression),
        };
        expression.into_iter().flat_map(Expression::fields)
    }

    /// Its name, where the constructor has the field or table twice.
    pub fn named(self, name: &str) -> Operand {
        Operand {
            name: name.to_string(),
            ..self
        }
    }

    /// It starts at the end of an earlier operand.
    pub fn after(self, operand: &str) -> Operand {
        Operand {
            after: Some(operand.to_string()),
            ..self
        }
    }

    /// It starts so many bytes later.
    pub fn offset(self, bytes: u8) -> Operand {
        Operand {
            offset: bytes,
            ..self
        }
    }
}
