//! Tables for asking and for the clash check.

use generate::{
    bytes, deepest_full_table, deepest_table, format_table, instruction_set, instruction_starts,
    largest_tree_table, meeting_tables, nested_table, one_table, opcode_table, subset_table,
    table_ranges, table_with_tests, Rng, LEAST_TESTS,
};
use reference::{ask, check, clash, Clash, Description, Pattern};

/// How many tables are clear, and how many clash.
fn verdicts(descriptions: &[Description]) -> [usize; 2] {
    let mut verdicts = [0; 2];
    for d in descriptions {
        for range in table_ranges(d) {
            let table = d.constructors[range.start].table.into();
            let clear = clash(d, table) == Ok(Clash::Clear);
            verdicts[usize::from(!clear)] += 1;
        }
    }
    verdicts
}

fn descriptions(rng: &mut Rng, count: usize, most: usize) -> Vec<Description> {
    (0..count).map(|_| meeting_tables(rng, most)).collect()
}

#[test]
fn clear_tables_and_clashes() {
    let rng = &mut Rng::new(6);
    for (count, most) in [(200, 3), (200, 8), (40, 40), (40, 512)] {
        let [clear, clashing] = verdicts(&descriptions(rng, count, most));
        let least = count / 5;
        assert!(clear >= least && clashing >= least, "{clear} {clashing}");
    }
}

#[test]
fn full_tables() {
    let rng = &mut Rng::new(7);
    let sizes = descriptions(rng, 40, 512);
    let ranges = sizes.iter().flat_map(table_ranges);
    assert_eq!(ranges.map(|range| range.len()).max(), Some(512));
}

#[test]
fn every_bit_is_masked_by_some() {
    let rng = &mut Rng::new(8);
    let (mut bytes, mut context) = (0, 0);
    for d in descriptions(rng, 300, 8) {
        for c in d.constructors {
            bytes |= c.pattern.byte_mask;
            context |= c.pattern.context_mask;
        }
    }
    assert_eq!((bytes, context), (u64::MAX, u32::MAX));
}

#[test]
fn an_instruction_set_is_clear_and_its_starts_are_taken() {
    let rng = &mut Rng::new(9);
    for constructors in [1, 200, 512] {
        let d = instruction_set(constructors);
        assert_eq!(check(&bytes(&d)), Ok(d.clone()));
        assert_eq!(clash(&d, 0), Ok(Clash::Clear));
        let (code, starts) = instruction_starts(rng, &d, 1000);
        for start in starts {
            for context in [0, 1] {
                assert!(ask(&d, 0, context, &code[start..]).is_ok());
            }
        }
    }
}

#[test]
fn clear_tables() {
    let rng = &mut Rng::new(10);
    for _ in 0..5 {
        let small = [
            one_table(&[Pattern::default()]),
            deepest_table(rng),
            table_with_tests(rng, LEAST_TESTS),
            table_with_tests(rng, 3000),
        ];
        let full = [
            deepest_full_table(rng),
            largest_tree_table(),
            opcode_table(rng, 0x1fff, 512),
            format_table(rng),
            nested_table(rng),
            subset_table(rng),
        ];
        assert!(full.iter().all(|d| d.constructors.len() == 512));
        for d in small.into_iter().chain(full) {
            assert_eq!(check(&bytes(&d)), Ok(d.clone()));
            assert_eq!(clash(&d, 0), Ok(Clash::Clear));
        }
    }
}
