//! Every operator on values at which something may change: as constants two by
//! two, and with addresses.

use generate::{
    bytes, expression_table, operators_on_addresses, operators_on_constants, Rng, EDGE_ADDRESSES,
    TABLE_EXPRESSIONS,
};
use reference::{requests, Expression};

use crate::lent::{agreed_list, agreed_with_lent, Given};
use crate::listing::sort_of_line;
use crate::tally::Tally;

const COLUMNS: &[&str] = &["inside", "outside"];

/// The operators, from the kind of the first step that is one.
const OPERATORS: [&str; 8] = [
    "plus",
    "minus",
    "times",
    "and",
    "or",
    "exclusive or",
    "shift left",
    "shift right",
];
const FIRST: u8 = reference::Step::PLUS;

/// Numbers for the most rows, and more bytes than a line here has.
const ROWS: usize = 128;
const LINE: usize = 40;

/// Compares what each of them comes to, by a listing that shows as many as a
/// description holds, and one of these by a decoding.
pub fn compare(rng: &mut Rng) {
    let mut tally = Tally::new(COLUMNS);
    each_table(operators_on_constants(), |expressions| {
        table(rng, &mut tally, expressions, 0);
    });
    each_table(operators_on_addresses(), |expressions| {
        for address in EDGE_ADDRESSES {
            table(rng, &mut tally, expressions, address);
        }
    });
    print!("{tally}");
}

/// Runs a function on as many expressions at a time as a description holds.
fn each_table(mut all: impl Iterator<Item = Expression>, mut run: impl FnMut(&[Expression])) {
    loop {
        let some: Vec<Expression> = all.by_ref().take(TABLE_EXPRESSIONS).collect();
        match some[..] {
            [] => return,
            _ => run(&some),
        }
    }
}

fn table(rng: &mut Rng, tally: &mut Tally, expressions: &[Expression], address: u32) {
    let description = bytes(&expression_table(expressions));
    let code: Vec<u8> = (0..=255).take(expressions.len()).collect();
    let given = |kind, code| Given::new(kind, &description, 0, address, code);
    let (_, values, text) = agreed_list(&given("operators", &code), LINE * code.len());
    assert_eq!(values[1], code.len() as u64, "the reference");
    let text = String::from_utf8_lossy(&text[..values[0] as usize]);
    for (expression, line) in expressions.iter().zip(text.lines()) {
        let last = expression.steps[usize::from(expression.step_count) - 1];
        let operator = OPERATORS[usize::from(last.kind - FIRST)];
        tally.count(operator, sort_of_line(line));
    }
    let one = [rng.pick(&code)];
    let given = given("an operator", &one);
    agreed_with_lent(&given, ROWS, requests::rows, dookerand::decode);
}
