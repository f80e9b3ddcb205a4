//! What a constructor shows.

use crate::limits;
use crate::refusal::{ensure, sound_text, Refusal};

/// A part of a shown text.
#[derive(Clone, Debug, PartialEq, Eq)]
pub enum Part {
    Text(String),
    /// An operand by name.
    Operand(String),
}

/// The parts of a text with operands in braces.
pub fn parts(shows: &str) -> Result<Vec<Part>, Refusal> {
    let mut parts = Vec::new();
    let mut text = String::new();
    let mut rest = shows;
    while let Some(at) = rest.find(['{', '}']) {
        let brace = char::from(rest.as_bytes()[at]);
        text.push_str(&rest[..at]);
        rest = &rest[at + 1..];
        if let Some(behind) = rest.strip_prefix(brace) {
            text.push(brace);
            rest = behind;
            continue;
        }
        ensure!(brace == '{', "a }} without its {{");
        let Some((name, behind)) = rest.split_once('}') else {
            return Err(Refusal::new("a { without its }"));
        };
        add_text(&mut parts, &mut text)?;
        parts.push(Part::Operand(name.to_string()));
        rest = behind;
    }
    text.push_str(rest);
    add_text(&mut parts, &mut text)?;
    ensure!(
        parts.len() <= limits::CONSTRUCTOR_PIECES,
        "{} pieces, and 16 is the most",
        parts.len()
    );
    Ok(parts)
}

fn add_text(parts: &mut Vec<Part>, text: &mut String) -> Result<(), Refusal> {
    if !text.is_empty() {
        sound_text(text)?;
        parts.push(Part::Text(std::mem::take(text)));
    }
    Ok(())
}
