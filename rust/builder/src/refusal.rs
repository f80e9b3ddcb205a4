//! Why there is no description.

use std::fmt::{Display, Formatter};

/// What is wrong, in words that name the field, constructor or table.
#[derive(Clone, Debug, PartialEq, Eq)]
pub struct Refusal {
    words: String,
}

impl Refusal {
    pub(crate) fn new(words: impl Into<String>) -> Refusal {
        Refusal {
            words: words.into(),
        }
    }

    /// The same, with what it is about before it.
    pub(crate) fn of(self, subject: impl Display) -> Refusal {
        Refusal::new(format!("{subject}: {}", self.words))
    }
}

impl Display for Refusal {
    fn fmt(&self, f: &mut Formatter<'_>) -> std::fmt::Result {
        f.write_str(&self.words)
    }
}

impl std::error::Error for Refusal {}

/// Refuses with these words unless the rule holds.
macro_rules! ensure {
    ($rule:expr, $($words:tt)+) => {
        if !$rule {
            return Err(crate::refusal::Refusal::new(format!($($words)+)));
        }
    };
}

pub(crate) use ensure;

/// A text that the description can hold.
pub(crate) fn sound_text(text: &str) -> Result<(), Refusal> {
    if let Some(character) = text.chars().find(|c| !(' '..='~').contains(c)) {
        ensure!(false, "{character:?} in {text:?} is not in 32 to 126");
    }
    ensure!(
        text.len() <= crate::limits::RUN,
        "a text of {} characters, and at most 255 are allowed",
        text.len()
    );
    Ok(())
}
