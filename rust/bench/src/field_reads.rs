//! How many fields are read in a second, by width and order: the proved read,
//! the loop over the token's bytes that it replaced, and a plain read.

use std::hint::black_box;
use std::slice;

use generate::Rng;
use reference::Field;

use crate::clock::Time;
use crate::timing::medians_of;

/// Reads of a round, each at another place of the code.
const READS: usize = 4096;

/// The longest token.
const WIDEST: u8 = 4;

const CONTEXT: u32 = 0x1234_5678;

/// No value has so many bits.
const UNREAD: u64 = u64::MAX;

/// A field's record, the context, and the code from the field's start on.
type Read = unsafe extern "C" fn(
    record: *const u8,
    record_len: usize,
    context: u32,
    code: *const u8,
    code_len: usize,
) -> u64;

mod c {
    extern "C" {
        pub fn timed_field_read(
            record: *const u8,
            record_len: usize,
            context: u32,
            code: *const u8,
            code_len: usize,
        ) -> u64;

        pub fn timed_field_read_by_bytes(
            record: *const u8,
            record_len: usize,
            context: u32,
            code: *const u8,
            code_len: usize,
        ) -> u64;
    }
}

/// The proved read, the one that it replaced, and a plain one.
const READERS: [Read; 3] = [c::timed_field_read, c::timed_field_read_by_bytes, plain];

pub fn print() {
    let tokens: Vec<(u8, u8)> = (1..=WIDEST)
        .flat_map(|width| [Field::LITTLE, Field::BIG].map(|order| (width, order)))
        .collect();
    println!("Fields read, by one call each: CPU, millions a second");
    println!("width  order       proved   by a loop       plain    proved to loop    to plain");
    for (&(width, order), times) in tokens.iter().zip(times(&tokens)) {
        let [proved, by_loop, plain] = times.map(|time| READS as f64 / time.cpu);
        let order = match order {
            Field::LITTLE => "little",
            _ => "big",
        };
        let (to_loop, to_plain) = (proved / by_loop, proved / plain);
        println!(
            "{width:5}  {order:6}{proved:>12.0}{by_loop:>12.0}{plain:>12.0}{to_loop:>18.2}{to_plain:>12.2}"
        );
    }
    println!(
        "The token but for its lowest and its highest bit. The loop over the token's bytes is the"
    );
    println!(
        "proved read that this one replaced; plain is the simplest read in Rust. All test the"
    );
    println!("record and the code's length first.");
}

/// Of all reads of a round, by each reader, for tokens of these widths and
/// orders.
fn times(tokens: &[(u8, u8)]) -> Vec<[Time; 3]> {
    let rng = &mut Rng::new(1);
    let code: Vec<u8> = (0..READS + usize::from(WIDEST))
        .map(|_| rng.byte())
        .collect();
    let jobs: Vec<_> = tokens
        .iter()
        .map(|&(width, order)| {
            let record = [Field::INSTRUCTION, width, order, 1, 8 * width - 2, 0, 0, 0];
            let code = &code;
            let sum = all(plain, &record, code);
            READERS.map(|read| move |_: usize| assert_eq!(all(black_box(read), &record, code), sum))
        })
        .collect();
    medians_of(&jobs)
}

/// The sum of what is read at each place.
fn all(read: Read, record: &[u8; 8], code: &[u8]) -> u64 {
    let (record, code) = (black_box(record), black_box(code));
    let at = |place: usize| {
        let code = &code[place..];
        // SAFETY: slices give readable ranges and no null pointers; a read
        // writes nothing.
        unsafe {
            read(
                record.as_ptr(),
                record.len(),
                CONTEXT,
                code.as_ptr(),
                code.len(),
            )
        }
    };
    (0..READS).map(at).fold(0, u64::wrapping_add)
}

/// # Safety
///
/// The pointers and lengths are those of slices.
unsafe extern "C" fn plain(
    record: *const u8,
    record_len: usize,
    context: u32,
    code: *const u8,
    code_len: usize,
) -> u64 {
    // SAFETY: as the caller says.
    let [record, code] = [(record, record_len), (code, code_len)]
        .map(|(start, length)| unsafe { slice::from_raw_parts(start, length) });
    let Some(&[source, width, order, low, high, ..]) = record.first_chunk::<8>() else {
        return UNREAD;
    };
    let absent = source == Field::INSTRUCTION && code.len() < usize::from(width);
    if WIDEST < width || high < low || 8 * width <= high || absent {
        return UNREAD;
    }
    let whole: u64 = match (source, order, width) {
        (Field::INSTRUCTION, _, 1) => code[0].into(),
        (Field::INSTRUCTION, Field::LITTLE, 2) => u16::from_le_bytes([code[0], code[1]]).into(),
        (Field::INSTRUCTION, Field::LITTLE, 3) => {
            u32::from_le_bytes([code[0], code[1], code[2], 0]).into()
        }
        (Field::INSTRUCTION, Field::LITTLE, _) => {
            u32::from_le_bytes([code[0], code[1], code[2], code[3]]).into()
        }
        (Field::INSTRUCTION, _, 2) => u16::from_be_bytes([code[0], code[1]]).into(),
        (Field::INSTRUCTION, _, 3) => u32::from_be_bytes([0, code[0], code[1], code[2]]).into(),
        (Field::INSTRUCTION, ..) => u32::from_be_bytes([code[0], code[1], code[2], code[3]]).into(),
        _ => context.into(),
    };
    whole >> low & ((1 << (high - low + 1)) - 1)
}
