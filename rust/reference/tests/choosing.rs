//! Choosing and the clash check, against the rules taken bit by bit.

use generate::example::constructor;
use generate::{code, context, input, meeting_tables, table_ranges, well_formed, Rng, Size};
use reference::{ask, clash, Clash, Description, Pattern, Refusal, Taken};

fn table_of(patterns: &[(u64, u64)]) -> Description {
    let constructor = |&pattern| constructor(0, 8, pattern, (0, 0), (0, 0));
    Description {
        constructors: patterns.iter().map(constructor).collect(),
        ..Description::default()
    }
}

#[test]
fn two_crossing_patterns() {
    let crossing = table_of(&[(0xf0, 0x10), (0x0f, 0x01)]);
    let ambiguous = Refusal::Ambiguous { place: 0, table: 0 };
    assert_eq!(ask(&crossing, 0, 0, &[0x11]), Err(ambiguous));
    assert_eq!(clash(&crossing, 0), Ok(Clash::Pair(0, 1)));
}

#[test]
fn their_overlap_makes_it_clear() {
    let clear = table_of(&[(0xf0, 0x10), (0x0f, 0x01), (0xff, 0x11)]);
    let taken = Taken {
        constructor: 2,
        weight: 8,
    };
    assert_eq!(ask(&clear, 0, 0, &[0x11]), Ok(taken));
    assert_eq!(clash(&clear, 0), Ok(Clash::Clear));
}

#[test]
fn the_overlap_in_two_parts_still_clashes() {
    let parts = table_of(&[
        (0xf0, 0x10),
        (0x0f, 0x01),
        (0x80ff, 0x0011),
        (0x80ff, 0x8011),
    ]);
    assert_eq!(clash(&parts, 0), Ok(Clash::Pair(0, 1)));
    let taken = ask(&parts, 0, 0, &[0x11, 0x40]).unwrap();
    assert_eq!(taken.constructor, 2);
}

#[test]
fn short_comes_first() {
    let special = table_of(&[(0xff, 0x11), (0xffff, 0x2211)]);
    assert_eq!(
        ask(&special, 0, 0, &[0x11]),
        Err(Refusal::Short { place: 0 })
    );
    assert_eq!(ask(&special, 0, 0, &[0x11, 0]).unwrap().constructor, 0);
}

#[test]
fn equal_patterns_around_a_third() {
    let equal = table_of(&[(0xf0, 0x10), (0xf0, 0x10), (0xff, 0x11)]);
    assert_eq!(ask(&equal, 0, 0, &[0x11]).unwrap().constructor, 2);
    let ambiguous = Refusal::Ambiguous { place: 0, table: 0 };
    assert_eq!(ask(&equal, 0, 0, &[0x12]), Err(ambiguous));
    assert_eq!(clash(&equal, 0), Ok(Clash::Pair(0, 1)));
}

#[test]
fn no_such_table() {
    let one = table_of(&[(0, 0)]);
    assert_eq!(clash(&one, 1), Err(Refusal::NoTable { table: 1 }));
    assert_eq!(clash(&one, 256), Err(Refusal::NoTable { table: 256 }));
}

/// A masked bit: a place (context bits from 64 on) and a value.
fn masked_bits(p: &Pattern) -> Vec<(usize, bool)> {
    let bytes = (0..64).filter(|bit| p.byte_mask >> bit & 1 == 1);
    let context = (0..32).filter(|bit| p.context_mask >> bit & 1 == 1);
    bytes
        .map(|bit| (bit, p.byte_value >> bit & 1 == 1))
        .chain(context.map(|bit| (64 + bit, p.context_value >> bit & 1 == 1)))
        .collect()
}

/// A bit of the input; nothing in a missing byte.
fn input_bit(code: &[u8], context: u32, place: usize) -> Option<bool> {
    if place >= 64 {
        return Some(context >> (place - 64) & 1 == 1);
    }
    code.get(place / 8).map(|byte| byte >> (place % 8) & 1 == 1)
}

fn inside(a: &Pattern, b: &Pattern) -> bool {
    let a = masked_bits(a);
    masked_bits(b).iter().all(|bit| a.contains(bit))
}

fn ask_by_the_rules(
    d: &Description,
    table: u32,
    context: u32,
    code: &[u8],
) -> Result<Taken, Refusal> {
    let pattern = |i: usize| &d.constructors[i].pattern;
    let records =
        (0..d.constructors.len()).filter(|&i| u32::from(d.constructors[i].table) == table);
    let read = |place| input_bit(code, context, place);
    let agreeing: Vec<usize> = records
        .filter(|&i| {
            masked_bits(pattern(i))
                .iter()
                .all(|&(place, value)| read(place) != Some(!value))
        })
        .collect();
    let misses = |&i: &usize| {
        masked_bits(pattern(i))
            .iter()
            .any(|&(place, _)| read(place).is_none())
    };
    if agreeing.iter().any(misses) {
        return Err(Refusal::Short { place: 0 });
    }
    if agreeing.is_empty() {
        return Err(Refusal::NoMatch { place: 0, table });
    }
    let inside_all = |&&i: &&usize| {
        agreeing
            .iter()
            .all(|&other| inside(pattern(i), pattern(other)))
    };
    let taken: Vec<&usize> = agreeing.iter().filter(inside_all).collect();
    match taken[..] {
        [&constructor] => Ok(Taken {
            constructor,
            weight: masked_bits(pattern(constructor)).len() as u32,
        }),
        _ => Err(Refusal::Ambiguous { place: 0, table }),
    }
}

fn clash_by_the_rules(d: &Description, table: u32) -> Clash {
    let of_table = |&i: &usize| u32::from(d.constructors[i].table) == table;
    let records: Vec<usize> = (0..d.constructors.len()).filter(of_table).collect();
    let bits = |i: usize| masked_bits(&d.constructors[i].pattern);
    for &i in &records {
        for &j in records.iter().filter(|&&j| j > i) {
            let (a, b) = (bits(i), bits(j));
            let mut both = [a.clone(), b.clone()].concat();
            both.sort();
            both.dedup();
            let overlap = both.windows(2).all(|pair| pair[0].0 != pair[1].0);
            let inside = both.len() == a.len() || both.len() == b.len();
            let third = records.iter().any(|&k| k != i && k != j && bits(k) == both);
            if a == b || overlap && !inside && !third {
                return Clash::Pair(i, j);
            }
        }
    }
    Clash::Clear
}

/// Asks by both ways; the answer's number.
fn asked(d: &Description, table: u32, context: u32, code: &[u8]) -> usize {
    let asked = ask(d, table, context, code);
    assert_eq!(asked, ask_by_the_rules(d, table, context, code), "{d:?}");
    asked.map_or_else(|refusal| refusal.number_and_values().0, |_| 0) as usize
}

fn all_common(answers: [usize; 5]) {
    let common = [answers[0], answers[2], answers[3], answers[4]];
    assert!(common.iter().all(|&count| count > 100), "{answers:?}");
}

#[test]
fn random_tables() {
    let rng = &mut Rng::new(4);
    let mut answers = [0; 5];
    for _ in 0..400 {
        let d = well_formed(rng, Size::SMALL);
        for table in (0..64).filter(|&table| d.table(table).is_some()) {
            let clear = clash(&d, table).unwrap();
            assert_eq!(clear, clash_by_the_rules(&d, table));
            for _ in 0..10 {
                let (code, context) = (code(rng, &d, 9), context(rng, &d));
                let number = asked(&d, table, context, &code);
                answers[number] += 1;
                assert!(clear != Clash::Clear || number != 4);
            }
        }
    }
    all_common(answers);
}

#[test]
fn tables_of_patterns_that_meet() {
    let rng = &mut Rng::new(5);
    let mut answers = [0; 5];
    for most in [1, 3, 8, 20].repeat(60) {
        let d = meeting_tables(rng, most);
        for range in table_ranges(&d) {
            let table = d.constructors[range.start].table.into();
            let records = &d.constructors[range];
            let patterns: Vec<Pattern> = records.iter().map(|c| c.pattern).collect();
            let clear = clash(&d, table).unwrap();
            assert_eq!(clear, clash_by_the_rules(&d, table), "{d:?}");
            let input = input(rng, &patterns);
            for length in 0..=input.code.len() {
                let number = asked(&d, table, input.context, &input.code[..length]);
                answers[number] += 1;
                assert!(clear != Clash::Clear || number != 4);
            }
        }
    }
    all_common(answers);
}
