//! The reference names the fault of each broken rule, and no fault where
//! there is none.

use generate::example::{description_s, full_featured};
use generate::{
    bytes, count_faults, limits, longest, longest_of_all, rules, well_formed, Rng, Size, CHANGES,
};
use reference::{check, Description};

fn bases(rng: &mut Rng) -> Vec<Description> {
    let mut bases = vec![
        description_s(),
        full_featured(),
        longest(),
        longest_of_all(),
    ];
    bases.extend((0..150).map(|_| well_formed(rng, Size::SMALL)));
    bases.extend((0..30).map(|_| well_formed(rng, Size::MIDDLE)));
    bases.extend((0..3).map(|_| well_formed(rng, Size::LARGE)));
    bases
}

#[test]
fn each_broken_rule_is_the_first_fault() {
    let rng = &mut Rng::new(1);
    let bases = bases(rng);
    for (name, break_rule) in rules() {
        let mut broken = 0;
        for base in &bases {
            let mut d = base.clone();
            if let Some(fault) = break_rule(&mut d, rng) {
                assert_eq!(check(&bytes(&d)), Err(fault), "{name}: {d:?}");
                broken += 1;
            }
        }
        assert!(broken > 20, "{name} was broken {broken} times only");
    }
}

#[test]
fn each_allowed_change_leaves_no_fault() {
    let rng = &mut Rng::new(2);
    let bases = bases(rng);
    for (name, change) in CHANGES {
        let mut changed = 0;
        for base in &bases {
            let mut d = base.clone();
            if change(&mut d, rng).is_some() {
                let checked = check(&bytes(&d));
                assert!(checked.is_ok(), "{name}: {:?} of {d:?}", checked.err());
                changed += 1;
            }
        }
        assert!(changed > 20, "{name} was used {changed} times only");
    }
}

#[test]
fn counts_and_limits() {
    let rng = &mut Rng::new(3);
    for base in bases(rng) {
        for (bytes, fault) in count_faults(&base, rng) {
            assert_eq!(check(&bytes), Err(fault));
        }
    }
    for case in limits() {
        assert_eq!(check(&case.bytes).err(), case.fault, "{}", case.name);
    }
}
