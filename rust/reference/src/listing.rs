//! Listing code as lines, and the listing program.

use crate::alignment::Alignment;
use crate::answer::Refusal;
use crate::check::check;
use crate::description::Description;
use crate::text::text_of;

const CODE_LIMIT: usize = 4096;
const CONTEXT: u32 = 0;
const ADDRESS: u32 = 0;
const ALIGNMENT: Alignment = Alignment::One;

/// What the program prints for its input: a length, a description, code.
pub fn listing(input: &[u8]) -> Vec<u8> {
    let (description, code) = split(input);
    match check(description) {
        Ok(d) => list(&d, CONTEXT, ADDRESS, ALIGNMENT, code, 0, usize::MAX).text,
        Err(fault) => format!("malformed {} {}\n", fault.section, fault.record).into_bytes(),
    }
}

/// The description and the code; an input that ends early leaves less.
fn split(input: &[u8]) -> (&[u8], &[u8]) {
    let Some((length, rest)) = input.split_first_chunk() else {
        return (&[], &[]);
    };
    let length = usize::from(u16::from_le_bytes(*length));
    let (description, code) = rest.split_at(length.min(rest.len()));
    (description, &code[..code.len().min(CODE_LIMIT)])
}

/// Lines of a listing, and where it goes on.
#[derive(Clone, Debug, PartialEq, Eq)]
pub struct Listed {
    pub text: Vec<u8>,
    pub lines: usize,
    pub next: u64,
    /// Another line follows, for which there is no room.
    pub full: bool,
}

/// Lists the code, whose byte 0 has this address, from a place on, as many whole
/// lines as there is room for. Instructions start at multiples of the alignment.
pub fn list(
    description: &Description,
    context: u32,
    address: u32,
    alignment: Alignment,
    code: &[u8],
    from: u64,
    room: usize,
) -> Listed {
    let mut listed = Listed {
        text: Vec::new(),
        lines: 0,
        next: from,
        full: false,
    };
    // Past the code's end there is no rest.
    while let Some(rest) = rest(code, listed.next) {
        let address = address_at(address, listed.next);
        let (shown, length) = shown_at(description, context, address, alignment, rest);
        let mut line = format!("{:08x}: ", line_address(address)).into_bytes();
        line.extend(shown);
        line.push(b'\n');
        if listed.text.len() + line.len() > room {
            listed.full = true;
            break;
        }
        listed.text.extend(line);
        listed.lines += 1;
        listed.next += length as u64;
    }
    listed
}

/// No address wraps.
fn address_at(address: u32, place: u64) -> u64 {
    u64::from(address) + place
}

/// What a line begins with, in eight digits or as many as it needs.
fn line_address(address: u64) -> u64 {
    address
}

/// The code from a place on, if that is inside.
fn rest(code: &[u8], from: u64) -> Option<&[u8]> {
    let rest = code.get(usize::try_from(from).ok()?..)?;
    (!rest.is_empty()).then_some(rest)
}

/// What a line shows behind its address, and how many bytes it is about.
/// Nothing follows a short instruction, so its line is about all that is left.
fn shown_at(
    description: &Description,
    context: u32,
    address: u64,
    alignment: Alignment,
    rest: &[u8],
) -> (Vec<u8>, usize) {
    match alignment.decode(description, context, address, rest) {
        Ok(decoded) => {
            let text = text_of(description, &decoded);
            (text.unwrap_or(b".long".to_vec()), decoded.length)
        }
        Err(Refusal::Short { .. }) => (b".short".to_vec(), rest.len()),
        Err(_) => {
            let gap = alignment.gap(address, rest);
            (shown_bytes(gap), gap.len())
        }
    }
}

/// What the line of a gap shows.
fn shown_bytes(bytes: &[u8]) -> Vec<u8> {
    let bytes: Vec<String> = bytes.iter().map(|byte| format!("0x{byte:02x}")).collect();
    format!(".byte {}", bytes.join(", ")).into_bytes()
}
