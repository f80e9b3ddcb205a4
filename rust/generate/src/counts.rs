//! Descriptions whose counts or lengths are wrong.

use reference::{Description, Fault, WHOLE_SECTION};

use crate::write::{bytes, counts, section_starts, sections, LIMITS, RECORD_SIZES, SECTIONS};
use crate::Rng;

/// Every way in which a section's count or length can be wrong, made of one
/// description.
pub fn count_faults(d: &Description, rng: &mut Rng) -> Vec<(Vec<u8>, Fault)> {
    let whole = bytes(d);
    let starts = section_starts(d);
    let mut cases = Vec::new();
    for section in 0..sections(d) {
        let fault = whole_section(section);
        let start = starts[section];
        let mut cuts = vec![start + 1];
        // The last section may be absent.
        if section + 1 < SECTIONS {
            cuts.push(start);
        }
        if counts(d)[section] > 0 {
            cuts.extend([start + 2, starts[section + 1] - 1]);
            cuts.push(rng.within(start + 2..=starts[section + 1] - 1));
        }
        cases.extend(cuts.into_iter().map(|cut| (whole[..cut].to_vec(), fault)));
        for count in [LIMITS[section] as u16 + 1, 0x8000, 65_535] {
            cases.push((with_count(&whole, start, count), fault));
        }
        if section == 2 {
            cases.push((with_count(&whole, start, 0), fault));
        }
    }
    let fault = whole_section(SECTIONS - 1);
    let more = left_over(rng).map(|more| ([&whole[..], &more].concat(), fault));
    cases.extend(more);
    cases
}

/// Bytes that may not follow: not behind the last section, and where that is
/// absent they are not just its count and records.
fn left_over(rng: &mut Rng) -> [Vec<u8>; 5] {
    let (size, limit) = (RECORD_SIZES[SECTIONS - 1], LIMITS[SECTIONS - 1]);
    let any = (0..rng.within(1..=300)).map(|_| rng.byte_within(32..=126));
    let counted = |count: usize, bytes: usize| {
        let count = (count as u16).to_le_bytes();
        [&count[..], &vec![0; bytes]].concat()
    };
    [
        any.collect(),
        vec![0],
        counted(0, 1),
        counted(1, size - 1),
        counted(limit + 1, (limit + 1) * size),
    ]
}

fn whole_section(section: usize) -> Fault {
    Fault {
        section: section as u16 + 1,
        record: WHOLE_SECTION,
    }
}

/// The bytes with another count at this place.
pub fn with_count(whole: &[u8], start: usize, count: u16) -> Vec<u8> {
    let mut changed = whole.to_vec();
    changed[start..start + 2].copy_from_slice(&count.to_le_bytes());
    changed
}
