//! Expressions and computed operands.

use generate::example::{branch, step, target};
use generate::{
    address, bytes, compute_some, decodable, edge_values, expression_table, longest_of_all,
    operators_on_addresses, operators_on_constants, planted, some_expression, well_formed, Leaning,
    Rng, Size, EDGE_ADDRESSES, TABLE_EXPRESSIONS,
};
use reference::{check, decode, Description, Operand, Refusal, Step, STEP_LIMIT};

#[test]
fn random_expressions_are_sound() {
    let rng = &mut Rng::new(20);
    let mut kinds = [0; 12];
    for i in 0..5000 {
        let steps = 1 + i % STEP_LIMIT;
        let operands: &[u8] = if i % 3 == 0 { &[] } else { &[2, 7] };
        let expression = some_expression(rng, operands, steps);
        assert!(expression.is_sound(), "{expression:?}");
        assert_eq!(usize::from(expression.step_count), steps);
        assert!(expression.operand_numbers().all(|n| operands.contains(&n)));
        for step in &expression.steps[..steps] {
            kinds[usize::from(step.kind)] += 1;
        }
    }
    assert!(kinds.iter().all(|&count| count > 500), "{kinds:?}");
}

/// Fields named by computed operands before, behind, and of the context.
fn named(d: &Description) -> [bool; 3] {
    let mut named = [false; 3];
    for constructor in &d.constructors {
        let operands = d.operands_of(constructor);
        for (position, operand) in operands.iter().enumerate() {
            if operand.kind != Operand::COMPUTED {
                continue;
            }
            for number in d.expressions[usize::from(operand.index)].operand_numbers() {
                let place = usize::from(number) - 1;
                let field = &d.fields[usize::from(operands[place].index)];
                named[0] |= place < position;
                named[1] |= place > position;
                named[2] |= field.is_context();
            }
        }
    }
    named
}

#[test]
fn computed_operands_in_random_descriptions() {
    let rng = &mut Rng::new(21);
    let (mut without, mut with, mut of_named) = (0, 0, [0; 3]);
    for i in 0..1000 {
        let d = match i % 2 {
            0 => well_formed(rng, Size::SMALL),
            _ => decodable(rng, Size::SMALL, Leaning::Done),
        };
        without += usize::from(d.expressions.is_empty());
        with += usize::from(!d.expressions.is_empty());
        for (count, named) in of_named.iter_mut().zip(named(&d)) {
            *count += usize::from(named);
        }
    }
    assert!(without > 300 && with > 200, "{without} {with}");
    assert!(of_named.iter().all(|&count| count > 20), "{of_named:?}");
}

/// Often enough a value is outside, and often enough none is.
#[test]
fn computed_values() {
    let rng = &mut Rng::new(22);
    let (mut outside, mut computed) = (0, 0);
    for _ in 0..2000 {
        let mut d = decodable(rng, Size::SMALL, Leaning::Done);
        if d.expressions.is_empty() {
            compute_some(rng, &mut d);
        }
        assert!(check(&bytes(&d)).is_ok());
        let (code, context) = planted(rng, &d, 20);
        match decode(&d, context, address(rng), &code) {
            Ok(rows) => computed += usize::from(rows.iter().any(|row| row[0] == 3)),
            Err(Refusal::Outside { .. }) => outside += 1,
            Err(_) => {}
        }
    }
    assert!(outside > 50 && computed > 500, "{outside} {computed}");
}

#[test]
fn edges() {
    let values = edge_values();
    for value in [0, 1, 2, 3, (1 << 31) - 1, 1 << 32, (1 << 62) + 1, i64::MAX] {
        assert!(values.contains(&value) && values.contains(&-value));
    }
    assert!(values.contains(&i64::MIN));
    let (count, addresses) = (values.len(), 2);
    let constants = operators_on_constants().count();
    assert_eq!(constants, 6 * count * count + 2 * 64 * count);
    let pairs = 2 * count * addresses + addresses * addresses;
    let with_addresses = operators_on_addresses().count();
    assert_eq!(with_addresses, 6 * pairs + 2 * 64 * addresses);
}

/// Each instruction of the table shows its own expression.
#[test]
fn a_table_of_expressions() {
    let expressions: Vec<_> = operators_on_addresses().take(TABLE_EXPRESSIONS).collect();
    let d = expression_table(&expressions);
    assert_eq!(check(&bytes(&d)), Ok(d.clone()));
    for i in 0..=255 {
        if let Ok(rows) = decode(&d, 0, EDGE_ADDRESSES[3], &[i]) {
            assert_eq!(rows[1][..3], [3, i.into(), 0]);
        }
    }
}

#[test]
fn fixed_ones() {
    for d in [target(), branch(&[step(Step::CONSTANT, 1)])] {
        assert_eq!(check(&bytes(&d)), Ok(d));
    }
    let longest = longest_of_all();
    let full = |e: &reference::Expression| usize::from(e.step_count) == STEP_LIMIT;
    assert!(longest.expressions.iter().all(full));
    assert!(named(&longest)[0]);
}
