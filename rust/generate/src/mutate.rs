//! Random changes to descriptions.

use reference::Description;

use crate::counts::with_count;
use crate::write::{bytes, counts, section_starts, sections, LIMITS, RECORD_SIZES, SECTIONS};
use crate::{meeting_tables, rules, Rng};

/// Descriptions of tables whose patterns meet, each with its bytes after one
/// rule is broken and after records are changed, so often for each rule.
pub fn changed_tables(rng: &mut Rng, times: usize) -> Vec<(Description, Vec<u8>)> {
    let mut all = Vec::new();
    for (_, break_rule) in rules() {
        for _ in 0..times {
            let d = meeting_tables(rng, 3);
            let mut broken = d.clone();
            break_rule(&mut broken, rng);
            all.push((d.clone(), bytes(&broken)));
            let changed = change_records(&d, rng);
            all.push((d, changed));
        }
    }
    all
}

/// Changes one or a few bytes of records, so that the counts still hold.
pub fn change_records(d: &Description, rng: &mut Rng) -> Vec<u8> {
    let mut changed = bytes(d);
    for _ in 0..few(rng) {
        let section = rng.index_where(SECTIONS, |i| counts(d)[i] > 0);
        if let Some(section) = section {
            let record = rng.below(counts(d)[section]);
            let start = section_starts(d)[section] + 2 + record * RECORD_SIZES[section];
            let at = start + rng.below(RECORD_SIZES[section]);
            changed[at] = other_byte(rng, changed[at]);
        }
    }
    changed
}

/// Changes one or a few bytes anywhere.
pub fn change_bytes(d: &Description, rng: &mut Rng) -> Vec<u8> {
    let mut changed = bytes(d);
    for _ in 0..few(rng) {
        let at = rng.below(changed.len());
        changed[at] = other_byte(rng, changed[at]);
    }
    changed
}

/// Inserts or removes a run of bytes; often whole records, with the count
/// kept right.
pub fn insert_or_remove(d: &Description, rng: &mut Rng) -> Vec<u8> {
    let mut changed = bytes(d);
    let section = rng.below(sections(d));
    let size = RECORD_SIZES[section];
    let count = counts(d)[section];
    let start = section_starts(d)[section];
    if rng.once_in(4) {
        let at = rng.below(changed.len());
        let gone = rng.within(0..=4).min(changed.len() - at);
        let added: Vec<u8> = (0..rng.within(0..=4)).map(|_| rng.byte()).collect();
        changed.splice(at..at + gone, added);
        return changed;
    }
    let at = start + 2 + rng.within(0..=count) * size;
    if at < start + 2 + count * size && rng.once_in(2) {
        changed.drain(at..at + size);
        return with_count(&changed, start, count as u16 - 1);
    }
    // A copy of another record is likelier sound than any bytes.
    let record = match count {
        0 => vec![0; size],
        _ => {
            let from = start + 2 + rng.below(count) * size;
            changed[from..from + size].to_vec()
        }
    };
    changed.splice(at..at, record);
    with_count(&changed, start, count as u16 + 1)
}

/// Changes a count, by little or to anything.
pub fn change_counts(d: &Description, rng: &mut Rng) -> Vec<u8> {
    let section = rng.below(sections(d));
    let count = counts(d)[section] as u16;
    let other = match rng.below(4) {
        0 => count.wrapping_add(1),
        1 => count.wrapping_sub(1),
        2 => rng.within(0..=LIMITS[section] + 1) as u16,
        _ => rng.word() as u16,
    };
    with_count(&bytes(d), section_starts(d)[section], other)
}

/// Right counts and records of any bytes.
pub fn random_records(rng: &mut Rng) -> Vec<u8> {
    let mut made = Vec::new();
    let sections = rng.within(SECTIONS - 1..=SECTIONS);
    for (section, size) in RECORD_SIZES.into_iter().take(sections).enumerate() {
        // Without fields the later sections are reached more often.
        let least = usize::from(section == 2);
        let most = if section == 0 && rng.once_in(2) { 0 } else { 3 };
        let count = rng.within(least..=most);
        made.extend((count as u16).to_le_bytes());
        // Small numbers are likelier sound.
        let most = rng.pick(&[0, 1, 4, 255]);
        made.extend((0..count * size).map(|_| match section {
            5 => rng.byte_within(30..=128),
            _ => rng.byte_within(0..=most),
        }));
    }
    made
}

fn few(rng: &mut Rng) -> usize {
    match rng.once_in(2) {
        true => 1,
        false => rng.within(2..=5),
    }
}

/// A byte near the old one, at a limit, or any.
fn other_byte(rng: &mut Rng, old: u8) -> u8 {
    const LIMITS: [u8; 16] = [0, 1, 2, 4, 5, 8, 9, 15, 16, 17, 31, 32, 63, 64, 126, 255];
    match rng.below(5) {
        0 => old.wrapping_add(1),
        1 => old.wrapping_sub(1),
        2 => old ^ 1 << rng.below(8),
        3 => rng.pick(&LIMITS),
        _ => rng.byte(),
    }
}
