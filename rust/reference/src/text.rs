//! What a decoded instruction shows.

use crate::answer::Refusal;
use crate::decode::{decode_instruction, Decoded, Part};
use crate::description::{Description, Field, Piece};

const TEXT_LIMIT: usize = 256;

/// Decodes the instruction at the code's start to text.
pub fn decode_text(
    description: &Description,
    context: u32,
    address: u32,
    code: &[u8],
) -> Result<Vec<u8>, Refusal> {
    let decoded = decode_instruction(description, context, address.into(), code)?;
    text_of(description, &decoded)
}

/// The whole text, if it is not too long.
pub fn text_of(description: &Description, decoded: &Decoded) -> Result<Vec<u8>, Refusal> {
    let mut text = Vec::new();
    show(description, decoded, &mut text);
    match text.len() > TEXT_LIMIT {
        true => Err(Refusal::TextTooLong),
        false => Ok(text),
    }
}

fn show(description: &Description, decoded: &Decoded, text: &mut Vec<u8>) {
    let constructor = &description.constructors[decoded.constructor];
    for piece in description.pieces_of(constructor) {
        if piece.kind == Piece::TEXT {
            text.extend_from_slice(description.text_at(piece.text_offset, piece.n));
            continue;
        }
        match &decoded.operands[usize::from(piece.n) - 1] {
            Part::Constructor(inner) => show(description, inner, text),
            &Part::Field { field, value, .. } => {
                show_value(description, &description.fields[field], value, text)
            }
            &Part::Computed { value, .. } => show_hex(value, text),
        }
    }
}

fn show_value(description: &Description, field: &Field, value: i64, text: &mut Vec<u8>) {
    match field.look {
        Field::UNSIGNED_DECIMAL | Field::SIGNED_DECIMAL => {
            text.extend_from_slice(value.to_string().as_bytes());
        }
        Field::UNSIGNED_HEX | Field::SIGNED_HEX => show_hex(value, text),
        _ => {
            let name = &description.names[value as usize];
            text.extend_from_slice(description.text_at(name.text_offset, name.length));
        }
    }
}

fn show_hex(value: i64, text: &mut Vec<u8>) {
    let sign = if value < 0 { "-" } else { "" };
    let digits = format!("{sign}0x{:x}", value.unsigned_abs());
    text.extend_from_slice(digits.as_bytes());
}
