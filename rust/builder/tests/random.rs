//! Random descriptions: those that keep the rules are built, and what is read
//! back is what was given; those that may break some are refused or accepted.

use std::collections::HashMap;

use builder::{Builder, Constructor, Expression, Field, Operand};
use generate::Rng;
use reference::{check, Description};

/// An operand as it was given: its field, table or steps, anchor and offset.
type Given = (String, u8, u8);

/// The kinds and values of an expression's steps.
type Steps = Vec<(u8, i64)>;

/// A field as it was given, and its names.
type GivenField = (reference::Field, Vec<Option<String>>);

/// A constructor as it was given.
#[derive(Clone, Debug, Default, PartialEq)]
struct Expected {
    table: String,
    minimum: u8,
    pattern: reference::Pattern,
    operands: Vec<Given>,
    pieces: Vec<String>,
}

/// A random description in the making.
struct Making<'a> {
    rng: &'a mut Rng,
    /// Whether rules may be broken.
    loose: bool,
    builder: Builder,
    fields: Vec<(String, bool)>,
    given_fields: Vec<GivenField>,
    tables: Vec<String>,
    expected: Vec<Expected>,
}

impl Making<'_> {
    /// Now and then a number that may be too large, if that is allowed.
    fn number(&mut self, most: usize, beyond: usize) -> usize {
        let most = match self.loose && self.rng.once_in(60) {
            true => beyond,
            false => most,
        };
        self.rng.within(0..=most)
    }

    fn field(&mut self) {
        let is_context = self.rng.once_in(4);
        let width = if is_context { 4 } else { 1 + self.number(3, 4) };
        let high = self.number(8 * width - 1, 8 * width);
        let low = self.number(high, high + 1);
        let order = u8::from(!is_context && self.rng.once_in(2));
        let mut given = reference::Field {
            source: u8::from(is_context),
            width: width as u8,
            order,
            low: low as u8,
            high: high as u8,
            look: self.rng.byte_within(0..=4),
            first_name: 0,
        };
        let bits = (high + 1).saturating_sub(low);
        let mut names = Vec::new();
        if given.look == reference::Field::NAMES && bits > 5 {
            given.look = reference::Field::UNSIGNED_DECIMAL;
        }
        if given.look == reference::Field::NAMES {
            let count = (1 << bits) + self.number(0, 1);
            names = (0..count).map(|_| self.name()).collect();
        }
        let name = format!("f{}", self.fields.len());
        self.builder.field(&name, field_of(&given, &names));
        self.fields.push((name, is_context));
        self.given_fields.push((given, names));
    }

    fn name(&mut self) -> Option<String> {
        match self.rng.once_in(8) {
            true => None,
            false => Some(self.text(3)),
        }
    }

    fn text(&mut self, longest: usize) -> String {
        let mut text: String = (0..self.rng.within(1..=longest))
            .map(|_| char::from(self.rng.pick(b"abcr01 +-,[]")))
            .collect();
        if self.loose && self.rng.once_in(400) {
            text.push('\t');
        }
        text
    }

    /// A constructor for a table; it shows the number it was made with.
    fn constructor(&mut self, table: usize) -> Constructor {
        let mut expected = Expected {
            table: self.tables[table].clone(),
            ..Expected::default()
        };
        let (operands, shows) = self.operands(table, &mut expected);
        let made = operands
            .into_iter()
            .fold(Constructor::new(&shows), Constructor::operand);
        let made = self.pattern(made, &mut expected);
        self.expected.push(expected);
        made
    }

    fn pattern(&mut self, mut made: Constructor, expected: &mut Expected) -> Constructor {
        let bytes = self.rng.within(0..=4);
        let pattern = &mut expected.pattern;
        for byte in 0..bytes {
            let mask = self.rng.byte() & self.rng.byte();
            let value = self.rng.byte() & mask;
            made = made.bytes(&bits(mask, value));
            pattern.byte_mask |= u64::from(mask) << (8 * byte);
            pattern.byte_value |= u64::from(value) << (8 * byte);
        }
        if self.rng.once_in(4) {
            pattern.context_mask = self.rng.word() as u32 & self.rng.word() as u32;
            pattern.context_value = self.rng.word() as u32 & pattern.context_mask;
            made = made.context(pattern.context_mask, pattern.context_value);
        }
        expected.minimum = bytes as u8;
        if self.rng.once_in(3) {
            let least = match self.loose && self.rng.once_in(40) {
                true => 0,
                false => expected.pattern.masked_length() as usize,
            };
            expected.minimum = (least + self.number(16 - least, 17 - least)) as u8;
            made = made.minimum(expected.minimum);
        }
        made
    }

    /// Operands, and a text that shows some of them.
    fn operands(&mut self, table: usize, expected: &mut Expected) -> (Vec<Operand>, String) {
        let mut shows = format!("#{}:", self.expected.len());
        expected.pieces.push(shows.clone());
        let mut operands = Vec::new();
        for position in 0..self.number(6, 9) {
            let Some((operand, given)) = self.operand(table, position) else {
                break;
            };
            operands.push(operand);
            expected.operands.push(given);
            if self.rng.once_in(3) {
                let text = self.text(5);
                shows += &text;
                match expected.pieces.last_mut() {
                    Some(last) if !last.starts_with('{') => *last += &text,
                    _ => expected.pieces.push(text),
                }
            }
            if !self.rng.once_in(4) {
                shows += &format!("{{o{position}}}");
                expected.pieces.push(format!("{{{}}}", position + 1));
            }
        }
        self.compute(&mut operands, &mut expected.operands);
        (operands, shows)
    }

    /// Puts computed operands in the place of some, over the fields that are left.
    fn compute(&mut self, operands: &mut [Operand], given: &mut [Given]) {
        let (computed, left): (Vec<usize>, Vec<usize>) =
            (0..operands.len()).partition(|_| self.rng.once_in(5));
        let any = self.loose && self.rng.once_in(30);
        let is_named = |position: &usize| any || given[*position].0.starts_with('f');
        let named: Vec<usize> = left.into_iter().filter(is_named).collect();
        for position in computed {
            let (expression, steps) = self.expression(&named);
            let operand = Operand::computed(&format!("o{position}"), expression);
            operands[position] = operand.offset(self.number(0, 1) as u8);
            given[position] = (format!("{steps:?}"), 0, 0);
        }
    }

    /// An expression over operands at these positions, and its steps.
    fn expression(&mut self, named: &[usize]) -> (Expression, Steps) {
        let (mut made, mut steps) = self.term(named);
        for _ in 0..self.number(7, 8) {
            if self.rng.once_in(3) {
                let bits = self.number(63, 64) as u8;
                let kind = self.rng.byte_within(10..=11);
                made = if kind == 10 {
                    made << bits
                } else {
                    made >> bits
                };
                steps.push((kind, bits.into()));
                continue;
            }
            let (mut left, mut right) = ((made, steps), self.term(named));
            if self.rng.once_in(2) {
                std::mem::swap(&mut left, &mut right);
            }
            let kind = self.rng.byte_within(4..=9);
            made = joined(kind, left.0, right.0);
            steps = [left.1, right.1, vec![(kind, 0)]].concat();
        }
        (made, steps)
    }

    fn term(&mut self, named: &[usize]) -> (Expression, Steps) {
        match self.rng.below(4) {
            0 if !named.is_empty() => {
                let position = self.rng.pick(named);
                let field = Expression::field(&format!("o{position}"));
                (field, vec![(1, position as i64 + 1)])
            }
            1 => (Expression::address(), vec![(2, 0)]),
            2 => (Expression::next(), vec![(3, 0)]),
            _ => {
                let value = self.rng.word() as i64 >> self.rng.below(64);
                (Expression::from(value), vec![(0, value)])
            }
        }
    }

    fn operand(&mut self, table: usize, position: usize) -> Option<(Operand, Given)> {
        let inner = if self.loose && self.rng.once_in(100) {
            self.tables.len()
        } else {
            table
        };
        let of_table = inner > 0 && self.rng.once_in(3);
        let (of, is_context) = match of_table {
            true => (self.tables[self.rng.below(inner)].clone(), false),
            false if self.fields.is_empty() => return None,
            false => self.fields[self.rng.below(self.fields.len())].clone(),
        };
        let mut operand = Operand::new(&of).named(&format!("o{position}"));
        if is_context && !(self.loose && self.rng.once_in(60)) {
            return Some((operand, (of, 0, 0)));
        }
        let anchor = self.number(position, position + 1);
        if anchor > 0 {
            operand = operand.after(&format!("o{}", anchor - 1));
        }
        let offset = self.number(15, 16) as u8;
        Some((operand.offset(offset), (of, anchor as u8, offset)))
    }
}

fn joined(kind: u8, left: Expression, right: Expression) -> Expression {
    match kind {
        4 => left + right,
        5 => left - right,
        6 => left * right,
        7 => left & right,
        8 => left | right,
        _ => left ^ right,
    }
}

fn field_of(given: &reference::Field, names: &[Option<String>]) -> Field {
    let field = match (given.source, given.order) {
        (reference::Field::CONTEXT, _) => Field::context(),
        (_, reference::Field::BIG) => Field::big(given.width),
        _ => Field::little(given.width),
    };
    let field = field.bits(given.low, given.high);
    match given.look {
        reference::Field::SIGNED_DECIMAL => field.signed(),
        reference::Field::UNSIGNED_HEX => field.hex(),
        reference::Field::SIGNED_HEX => field.signed_hex(),
        reference::Field::NAMES => field.names_or_holes(names.iter().cloned()),
        _ => field,
    }
}

/// A byte's pattern as text.
fn bits(mask: u8, value: u8) -> String {
    let bit = |bit: u32| match (mask >> bit & 1, value >> bit & 1) {
        (0, _) => 'x',
        (_, 0) => '0',
        _ => '1',
    };
    (0..8).rev().map(bit).collect()
}

fn making(rng: &mut Rng, loose: bool) -> Making<'_> {
    let tables = rng.within(1..=6);
    let mut making = Making {
        rng,
        loose,
        builder: Builder::new(),
        fields: Vec::new(),
        given_fields: Vec::new(),
        tables: (0..tables).map(|i| format!("t{i}")).collect(),
        expected: Vec::new(),
    };
    for _ in 0..making.rng.within(0..=8) {
        making.field();
    }
    // Each table has one; they are added in any order.
    let mut users: Vec<usize> = (0..tables).collect();
    users.extend((0..making.rng.within(0..=12)).map(|i| i % tables));
    making.rng.shuffle(&mut users);
    for table in users {
        let constructor = making.constructor(table);
        making
            .builder
            .constructor(&making.tables[table], constructor);
    }
    making
}

/// The constructors as they are read back, by the number that they show.
fn read_back(d: &Description, root: &str, expected: &[Expected]) -> Vec<Expected> {
    let number = |c: &reference::Constructor| -> usize {
        let first = d.pieces_of(c)[0];
        let text = String::from_utf8_lossy(d.text_at(first.text_offset, first.n)).into_owned();
        let digits: String = text[1..].chars().take_while(|c| *c != ':').collect();
        digits.parse().unwrap()
    };
    let mut tables = HashMap::new();
    for c in &d.constructors {
        let name = &expected[number(c)].table;
        assert_eq!(tables.entry(c.table).or_insert(name), &name);
    }
    assert_eq!(tables[&(d.root() as u8)], root);
    let mut found = vec![Expected::default(); expected.len()];
    for c in &d.constructors {
        let operand = |o: &reference::Operand| {
            let of = match o.kind {
                reference::Operand::FIELD => format!("f{}", o.index),
                reference::Operand::COMPUTED => steps(&d.expressions[usize::from(o.index)]),
                _ => tables[&o.index].clone(),
            };
            (of, o.anchor, o.offset)
        };
        let piece = |p: &reference::Piece| match p.kind {
            reference::Piece::TEXT => {
                String::from_utf8_lossy(d.text_at(p.text_offset, p.n)).into_owned()
            }
            _ => format!("{{{}}}", p.n),
        };
        found[number(c)] = Expected {
            table: tables[&c.table].clone(),
            minimum: c.minimum_length,
            pattern: c.pattern,
            operands: d.operands_of(c).iter().map(operand).collect(),
            pieces: d.pieces_of(c).iter().map(piece).collect(),
        };
    }
    found
}

fn steps(expression: &reference::Expression) -> String {
    let steps = &expression.steps[..usize::from(expression.step_count)];
    let steps: Steps = steps.iter().map(|step| (step.kind, step.value)).collect();
    format!("{steps:?}")
}

/// The fields as they are read back; first names are the builder's choice.
fn fields_read_back(d: &Description) -> Vec<GivenField> {
    let name = |n: &reference::Name| match n.length {
        0 => None,
        length => {
            let text = d.text_at(n.text_offset, length);
            Some(String::from_utf8_lossy(text).into_owned())
        }
    };
    let read = |f: &reference::Field| {
        let names = match f.look {
            reference::Field::NAMES => 1 << f.bits(),
            _ => 0,
        };
        let names = d.names[usize::from(f.first_name)..][..names].iter();
        let given = reference::Field {
            first_name: 0,
            ..*f
        };
        (given, names.map(name).collect())
    };
    d.fields.iter().map(read).collect()
}

#[test]
fn what_keeps_the_rules_is_built() {
    let rng = &mut Rng::new(21);
    for _ in 0..3000 {
        let made = making(rng, false);
        let root = made.tables.last().unwrap();
        let bytes = match made.builder.build(root) {
            Ok(bytes) => bytes,
            Err(refusal) => panic!("{refusal}"),
        };
        let d = check(&bytes).unwrap();
        assert_eq!(fields_read_back(&d), made.given_fields);
        assert_eq!(read_back(&d, root, &made.expected), made.expected);
    }
}

#[test]
fn what_is_built_is_well_formed() {
    let rng = &mut Rng::new(22);
    let (mut built, mut refused) = (0, 0);
    for _ in 0..20_000 {
        let made = making(rng, true);
        let root = &made.tables[made.rng.below(made.tables.len())];
        match made.builder.build(root) {
            Ok(bytes) => {
                assert!(check(&bytes).is_ok());
                built += 1;
            }
            Err(_) => refused += 1,
        }
    }
    assert!(built > 1000 && refused > 1000, "{built} {refused}");
}
