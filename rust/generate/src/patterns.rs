//! Random patterns that meet each other: equal, inside, overlapping, apart.

use reference::Pattern;

use crate::Rng;

/// A pattern for a table that has the earlier ones; one that clashes with
/// none of them, if that is asked for and soon found.
pub fn pattern(rng: &mut Rng, earlier: &[Pattern], clear: bool) -> Pattern {
    let tries = if clear { 8 } else { 1 };
    let mut found = any_pattern(rng, earlier);
    for _ in 1..tries {
        if earlier
            .iter()
            .all(|other| meets_well(&found, other, earlier))
        {
            break;
        }
        found = any_pattern(rng, earlier);
    }
    found
}

fn meets_well(new: &Pattern, other: &Pattern, earlier: &[Pattern]) -> bool {
    let inside = new.lies_inside(other) != other.lies_inside(new);
    inside || !new.overlaps(other) || earlier.contains(&new.overlap(other)) && new != other
}

fn any_pattern(rng: &mut Rng, earlier: &[Pattern]) -> Pattern {
    match (rng.below(16), earlier) {
        (0..=2, _) => Pattern::default(),
        (3, [_, ..]) => rng.pick(earlier),
        (4..=7, [_, ..]) => {
            let wider = rng.pick(earlier);
            join(wider, fresh(rng))
        }
        (8..=9, [_, _, ..]) => join(rng.pick(earlier), rng.pick(earlier)),
        _ => fresh(rng),
    }
}

/// Both patterns' masks; the first one's values where both mask a bit.
fn join(first: Pattern, second: Pattern) -> Pattern {
    Pattern {
        byte_mask: first.byte_mask | second.byte_mask,
        byte_value: first.byte_value | second.byte_value & !first.byte_mask,
        context_mask: first.context_mask | second.context_mask,
        context_value: first.context_value | second.context_value & !first.context_mask,
    }
}

fn fresh(rng: &mut Rng) -> Pattern {
    let mut mask = [0; 8];
    mask[0] = byte_mask(rng);
    if rng.once_in(4) {
        mask[1] = byte_mask(rng);
    }
    if rng.once_in(8) {
        mask[rng.below(8)] = 1 << rng.below(8);
    }
    let byte_mask = u64::from_le_bytes(mask);
    let context_mask = match rng.below(8) {
        0 => 1 << rng.below(32),
        1 | 2 => 1 << rng.below(3),
        _ => 0,
    };
    Pattern {
        byte_mask,
        byte_value: rng.word() & byte_mask,
        context_mask,
        context_value: rng.word() as u32 & context_mask,
    }
}

fn byte_mask(rng: &mut Rng) -> u8 {
    match rng.below(4) {
        0 => rng.byte() & rng.byte(),
        1 => 1 << rng.below(8),
        _ => rng.pick(&[0xf0, 0xf0, 0x0f, 0xff, 0xc0, 0x00]),
    }
}
