//! The rules of section 3 about the operands and pieces that a constructor
//! uses.

use reference::{Constructor, Description, Fault, Operand, Pattern, Step};

use super::{
    add_expression, constant, fault, give_operands, give_pieces, good_operands, lower_tables,
    some_constructor, some_field, Rule,
};
use crate::example::{computed, operand, shown, step};
use crate::expressions::some_expression;
use crate::write::LIMITS;
use crate::Rng;

pub const RULES: &[Rule] = &[
    ("table operand names its user's table", table_same),
    ("table operand names a higher table", table_higher),
    ("table operand over 63", table_over),
    ("table operand names no table", table_absent),
    ("table has a faulty constructor only", table_of_faulty),
    ("anchor of a field", anchor_of_field),
    ("anchor of a context field not earlier", anchor_of_context),
    ("anchor of a table", anchor_of_table),
    ("anchor of a computed operand", anchor_of_computed),
    ("anchor of an unknown kind", anchor_of_unknown),
    ("operand 0 shown", shown_0),
    ("operand past the count shown", shown_past),
    ("operand shown twice", shown_twice),
    ("expression of operand 0", names_0),
    ("expression of an operand past the count", names_past),
    ("expression of itself", names_itself),
    ("expression of a computed operand", names_computed),
    ("expression of a table operand", names_table),
    ("expression of an unknown kind", names_unknown),
    ("expression that fits another user only", names_for_another),
];

/// Gives some constructor operands with this one among them.
fn use_operand(d: &mut Description, rng: &mut Rng, user: usize, bad: Operand) -> Option<Fault> {
    let count = rng.within(1..=8);
    let mut operands = good_operands(d, rng, user, count)?;
    operands[rng.below(count)] = bad;
    give_operands(d, user, &operands)?;
    fault(3, user)
}

fn use_table(d: &mut Description, rng: &mut Rng, user: usize, table: u8) -> Option<Fault> {
    let offset = rng.byte_within(0..=15);
    use_operand(d, rng, user, operand(Operand::TABLE, table, 0, offset))
}

fn table_same(d: &mut Description, rng: &mut Rng) -> Option<Fault> {
    let user = some_constructor(d, rng);
    let table = d.constructors[user].table;
    use_table(d, rng, user, table)
}

fn table_higher(d: &mut Description, rng: &mut Rng) -> Option<Fault> {
    let root = d.root() as u8;
    let user = rng.index_where(d.constructors.len(), |i| d.constructors[i].table < root)?;
    let own = d.constructors[user].table;
    let higher = rng.index_where(d.constructors.len(), |i| d.constructors[i].table > own)?;
    let table = d.constructors[higher].table;
    use_table(d, rng, user, table)
}

fn table_over(d: &mut Description, rng: &mut Rng) -> Option<Fault> {
    let user = some_constructor(d, rng);
    let table = rng.byte_within(64..=255);
    use_table(d, rng, user, table)
}

/// A constructor, and a lower table number that no constructor has.
fn absent_table(d: &Description, rng: &mut Rng) -> Option<(usize, u8)> {
    let user = rng.index_where(d.constructors.len(), |i| {
        lower_tables(d, i).len() < usize::from(d.constructors[i].table)
    })?;
    let present = lower_tables(d, user);
    let own = usize::from(d.constructors[user].table);
    let absent = rng.index_where(own, |table| !present.contains(&(table as u8)))?;
    Some((user, absent as u8))
}

fn table_absent(d: &mut Description, rng: &mut Rng) -> Option<Fault> {
    let (user, absent) = absent_table(d, rng)?;
    use_table(d, rng, user, absent)
}

/// The user is sound, since a later constructor has the table; that one is
/// at fault, since its table falls.
fn table_of_faulty(d: &mut Description, rng: &mut Rng) -> Option<Fault> {
    let (user, absent) = absent_table(d, rng)?;
    if d.constructors.len() == LIMITS[2] {
        return None;
    }
    use_table(d, rng, user, absent)?;
    d.constructors.push(Constructor {
        table: absent,
        minimum_length: 1,
        pattern: Pattern::default(),
        operand_count: 0,
        first_operand: 0,
        piece_count: 0,
        first_piece: 0,
    });
    fault(3, d.constructors.len() - 1)
}

/// Gives some constructor operands of which one has an anchor that is not
/// earlier: itself, the next, or any later.
fn use_anchor(
    d: &mut Description,
    rng: &mut Rng,
    kind: u8,
    index: u8,
    user: usize,
) -> Option<Fault> {
    let count = rng.within(1..=8);
    let mut operands = good_operands(d, rng, user, count)?;
    let position = rng.within(1..=count) as u8;
    let anchor = match rng.below(4) {
        0 => rng.byte_within(position..=255),
        1 => position + 1,
        _ => position,
    };
    operands[usize::from(position) - 1] = operand(kind, index, anchor, 0);
    give_operands(d, user, &operands)?;
    fault(3, user)
}

fn anchor_of_field(d: &mut Description, rng: &mut Rng) -> Option<Fault> {
    let user = some_constructor(d, rng);
    let field = some_field(d, rng, false)?;
    use_anchor(d, rng, Operand::FIELD, field, user)
}

fn anchor_of_context(d: &mut Description, rng: &mut Rng) -> Option<Fault> {
    let user = some_constructor(d, rng);
    let field = some_field(d, rng, true)?;
    use_anchor(d, rng, Operand::FIELD, field, user)
}

fn anchor_of_table(d: &mut Description, rng: &mut Rng) -> Option<Fault> {
    let lowest = d.constructors[0].table;
    let user = rng.index_where(d.constructors.len(), |i| d.constructors[i].table > lowest)?;
    let table = rng.pick(&lower_tables(d, user));
    use_anchor(d, rng, Operand::TABLE, table, user)
}

fn anchor_of_unknown(d: &mut Description, rng: &mut Rng) -> Option<Fault> {
    let user = some_constructor(d, rng);
    let kind = rng.pick(&[3, 3, 4, 255]);
    use_anchor(d, rng, kind, 0, user)
}

fn anchor_of_computed(d: &mut Description, rng: &mut Rng) -> Option<Fault> {
    let user = some_constructor(d, rng);
    let index = constant(d)?;
    use_anchor(d, rng, Operand::COMPUTED, index, user)
}

/// Gives some constructor operands, all of them shown, and shows one more.
fn show(d: &mut Description, rng: &mut Rng, extra: impl Fn(&mut Rng, u8) -> u8) -> Option<Fault> {
    let user = some_constructor(d, rng);
    let count = rng.byte_within(1..=8);
    let operands = good_operands(d, rng, user, usize::from(count))?;
    give_operands(d, user, &operands)?;
    let mut pieces: Vec<_> = (1..=count).map(shown).collect();
    pieces.push(shown(extra(rng, count)));
    rng.shuffle(&mut pieces);
    give_pieces(d, user, &pieces)?;
    fault(3, user)
}

fn shown_0(d: &mut Description, rng: &mut Rng) -> Option<Fault> {
    show(d, rng, |_, _| 0)
}

fn shown_past(d: &mut Description, rng: &mut Rng) -> Option<Fault> {
    show(d, rng, |rng, count| match rng.once_in(3) {
        true => rng.byte_within(count + 1..=255),
        false => count + 1,
    })
}

fn shown_twice(d: &mut Description, rng: &mut Rng) -> Option<Fault> {
    show(d, rng, |rng, count| rng.byte_within(1..=count))
}

/// Gives some constructor fields, one operand that its expression names, and
/// that expression.
fn name_operand(d: &mut Description, rng: &mut Rng, user: usize, named: Operand) -> Option<Fault> {
    let number = rng.byte_within(1..=8);
    let computed = computed_naming(d, rng, number)?;
    let field = some_field(d, rng, false)?;
    let mut operands = [operand(Operand::FIELD, field, 0, 0); 8];
    let at = usize::from(number) - 1;
    operands[at] = named;
    operands[(at + rng.within(1..=7)) % 8] = computed;
    give_operands(d, user, &operands)?;
    fault(3, user)
}

/// A computed operand whose expression names this number somewhere.
fn computed_naming(d: &mut Description, rng: &mut Rng, number: u8) -> Option<Operand> {
    let steps = rng.within(1..=16);
    let mut naming = some_expression(rng, &[number], steps);
    let terms = usize::from(naming.step_count);
    let term = rng.index_where(terms, |i| naming.steps[i].kind <= Step::ADDRESS_AFTER)?;
    naming.steps[term] = step(Step::OPERAND, number.into());
    let index = add_expression(d, naming)?;
    Some(computed(index))
}

fn names_0(d: &mut Description, rng: &mut Rng) -> Option<Fault> {
    let user = some_constructor(d, rng);
    let computed = computed_naming(d, rng, 0)?;
    use_operand(d, rng, user, computed)
}

fn names_past(d: &mut Description, rng: &mut Rng) -> Option<Fault> {
    let user = some_constructor(d, rng);
    let count = rng.byte_within(1..=8);
    let past = rng.byte_within(count + 1..=255);
    let number = rng.pick(&[count + 1, count + 1, 9.max(count + 1), 255, past]);
    let mut operands = good_operands(d, rng, user, usize::from(count))?;
    operands[rng.below(usize::from(count))] = computed_naming(d, rng, number)?;
    give_operands(d, user, &operands)?;
    fault(3, user)
}

fn names_itself(d: &mut Description, rng: &mut Rng) -> Option<Fault> {
    let user = some_constructor(d, rng);
    let computed = computed_naming(d, rng, 1)?;
    give_operands(d, user, &[computed])?;
    fault(3, user)
}

fn names_computed(d: &mut Description, rng: &mut Rng) -> Option<Fault> {
    let user = some_constructor(d, rng);
    let index = constant(d)?;
    name_operand(d, rng, user, computed(index))
}

fn names_table(d: &mut Description, rng: &mut Rng) -> Option<Fault> {
    let lowest = d.constructors[0].table;
    let user = rng.index_where(d.constructors.len(), |i| d.constructors[i].table > lowest)?;
    let table = rng.pick(&lower_tables(d, user));
    name_operand(d, rng, user, operand(Operand::TABLE, table, 0, 0))
}

fn names_unknown(d: &mut Description, rng: &mut Rng) -> Option<Fault> {
    let user = some_constructor(d, rng);
    let kind = rng.pick(&[3, 3, 4, 255]);
    name_operand(d, rng, user, operand(kind, 0, 0, 0))
}

/// Two constructors share the records, and one of them takes one more.
fn names_for_another(d: &mut Description, rng: &mut Rng) -> Option<Fault> {
    let user = some_constructor(d, rng);
    let other = rng.index_where(d.constructors.len(), |i| i != user)?;
    let field = some_field(d, rng, false)?;
    let operands = [
        computed_naming(d, rng, 2)?,
        operand(Operand::FIELD, field, 0, 0),
    ];
    give_operands(d, user, &operands)?;
    give_pieces(d, other, &[])?;
    d.constructors[other].first_operand = d.constructors[user].first_operand;
    d.constructors[other].operand_count = 1;
    fault(3, other)
}
