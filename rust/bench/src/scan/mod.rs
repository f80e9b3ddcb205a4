//! The simplest fast decoder over a parsed description: it scans every
//! constructor of a table by whole words, makes nothing on the heap but a list
//! of computed operands, and answers as the rules say. What the proved library
//! is measured by.

mod choose;
mod compute;

use reference::{Constructor, Description, Expression, Field, Operand};

use choose::{Choice, Patterns};
pub use compute::{value, Terms};

/// The most tables, operands of a constructor, rows and bytes of an
/// instruction.
const TABLES: usize = 64;
const OPERANDS: usize = 8;
const ROWS: usize = 32;
const POSITIONS: usize = 16;

const ROW_NUMBERS: usize = 4;
/// Numbers for the most rows.
pub const ROOM: usize = ROW_NUMBERS * ROWS;

const NO_CONSTRUCTOR: i64 = 65_535;

const SHORT: u8 = 2;
const NO_MATCH: u8 = 3;
const AMBIGUOUS: u8 = 4;
const HOLE: u8 = 5;
const TOO_FAR: u8 = 6;
const TOO_MANY_ROWS: u8 = 7;
const ROOT_LENGTH_ZERO: u8 = 8;
const OUTSIDE: u8 = 13;
const NO_MULTIPLE: u8 = 14;

/// An answer from 2 to 8, 13 or 14, with its place and table.
#[derive(Clone, Copy, Debug, PartialEq, Eq)]
pub struct Refusal {
    pub number: u8,
    pub place: u8,
    pub table: u8,
}

/// Why a sweep ended, numbered as the library's answer is.
#[derive(Clone, Copy, Debug, PartialEq, Eq)]
pub enum End {
    Used,
    Full,
    Short,
}

/// A description in the form that is walked. So many patterns are looked at
/// before it branches: 1 is the plain loop, and with more the compiler can use
/// wider registers.
pub struct Scan<const GROUP: usize> {
    patterns: Patterns,
    constructors: Vec<Constructor>,
    operands: Vec<Operand>,
    fields: Vec<Field>,
    expressions: Vec<Expression>,
    /// For each constructor, whether it has a computed operand.
    computes: Vec<bool>,
    holes: Vec<bool>,
    /// Where each table's constructors start; the next one's start is its end.
    firsts: [usize; TABLES + 1],
    root: u8,
}

/// What a walk does with its rows.
trait Rows {
    fn put(&mut self, row: usize, numbers: [i64; ROW_NUMBERS]);
}

/// A sweep needs none of them.
struct NoRows;

impl Rows for NoRows {
    #[inline(always)]
    fn put(&mut self, _: usize, _: [i64; ROW_NUMBERS]) {}
}

impl Rows for [i64; ROOM] {
    #[inline(always)]
    fn put(&mut self, row: usize, numbers: [i64; ROW_NUMBERS]) {
        self[ROW_NUMBERS * row..][..ROW_NUMBERS].copy_from_slice(&numbers);
    }
}

struct Walk<'a, R> {
    context: u32,
    address: i64,
    code: &'a [u8],
    used: usize,
    rows: &'a mut R,
    /// In the order of the rows; empty before the walk.
    computed: &'a mut Vec<Computed>,
}

/// A computed operand, whose value needs the root's length.
struct Computed {
    row: usize,
    /// Its constructor's row.
    user: usize,
    expression: u8,
    start: usize,
    /// The values of its constructor's field operands.
    operands: [i64; OPERANDS],
}

impl<const GROUP: usize> Scan<GROUP> {
    /// Of a description that is well formed.
    pub fn new(d: &Description) -> Scan<GROUP> {
        let first = |table: usize| {
            d.constructors
                .partition_point(|c| usize::from(c.table) < table)
        };
        Scan {
            patterns: Patterns::new(d),
            constructors: d.constructors.clone(),
            operands: d.operands.clone(),
            fields: d.fields.clone(),
            expressions: d.expressions.clone(),
            computes: d.constructors.iter().map(|c| computes(d, c)).collect(),
            holes: d.names.iter().map(|name| name.length == 0).collect(),
            firsts: std::array::from_fn(first),
            root: d.root() as u8,
        }
    }

    /// Decodes the instruction at the code's start, and gives how many rows it
    /// has.
    pub fn decode(
        &self,
        context: u32,
        address: u32,
        code: &[u8],
        rows: &mut [i64; ROOM],
    ) -> Result<usize, Refusal> {
        let mut walk = Walk {
            context,
            address: address.into(),
            code,
            used: 0,
            rows,
            computed: &mut Vec::new(),
        };
        self.instruction(&mut walk)?;
        Ok(walk.used)
    }

    /// Sweeps the code into rows, and gives the end, the rows written and the
    /// next byte. The alignment is 1, 2, 4 or 8.
    pub fn sweep(
        &self,
        context: u32,
        address: u32,
        alignment: u32,
        code: &[u8],
        lent: &mut [i64],
    ) -> (End, usize, usize) {
        let mask = i64::from(alignment) - 1;
        let (mut rows, _) = lent.as_chunks_mut::<ROW_NUMBERS>();
        let (mut written, mut next) = (0, 0);
        let mut computed = Vec::new();
        loop {
            if next == code.len() {
                return (End::Used, written, next);
            }
            let Some((row, rest)) = rows.split_first_mut() else {
                return (End::Full, written, next);
            };
            computed.clear();
            let mut walk = Walk {
                context,
                address: i64::from(address) + next as i64,
                code: &code[next..],
                used: 0,
                rows: &mut NoRows,
                computed: &mut computed,
            };
            let (length, answer, constructor) = match self.aligned(&mut walk, mask) {
                Ok((constructor, length)) => (length, 0, constructor as i64),
                Err(Refusal { number: SHORT, .. }) => return (End::Short, written, next),
                Err(refusal) => (walk.gap(mask), refusal.number.into(), NO_CONSTRUCTOR),
            };
            *row = [next as i64, length as i64, answer, constructor];
            rows = rest;
            written += 1;
            next += length;
        }
    }

    /// The same as for any address, if this one has none of the mask's bits.
    #[inline(always)]
    fn aligned<R: Rows>(&self, walk: &mut Walk<R>, mask: i64) -> Result<(usize, usize), Refusal> {
        match walk.address & mask {
            0 => self.instruction(walk),
            _ => Err(refusal(NO_MULTIPLE, 0)),
        }
    }

    /// The root's constructor and length.
    fn instruction<R: Rows>(&self, walk: &mut Walk<R>) -> Result<(usize, usize), Refusal> {
        let root = self.table(walk, self.root, 0)?;
        if root.1 == 0 {
            return Err(refusal(ROOT_LENGTH_ZERO, 0));
        }
        for computed in walk.computed.iter() {
            let terms = Terms {
                address: walk.address,
                address_after: walk.address + root.1 as i64,
                operands: computed.operands,
            };
            let expression = &self.expressions[usize::from(computed.expression)];
            let value = value(expression, &terms).ok_or(refusal(OUTSIDE, computed.start))?;
            let numbers = [3, computed.expression.into(), computed.start as i64, value];
            walk.rows.put(computed.row, numbers);
        }
        Ok(root)
    }

    /// The constructor taken and its end.
    fn table<R: Rows>(
        &self,
        walk: &mut Walk<R>,
        table: u8,
        start: usize,
    ) -> Result<(usize, usize), Refusal> {
        let row = walk.next_row()?;
        if start > POSITIONS {
            return Err(refusal(TOO_FAR, start));
        }
        let chosen = self.choose(walk.context, walk.code, table, start)?;
        let constructor = &self.constructors[chosen];
        let mut end = start + usize::from(constructor.minimum_length);
        // Where each anchor number stands: the start, then operand ends.
        let mut anchors = [start; OPERANDS + 1];
        let operands = &self.operands[constructor.operand_range()];
        for (i, operand) in operands.iter().enumerate() {
            let at = anchors[usize::from(operand.anchor)] + usize::from(operand.offset);
            let operand_end = match operand.kind {
                Operand::TABLE => self.table(walk, operand.index, at)?.1,
                Operand::COMPUTED => walk.computed(row, operand.index, at)?,
                _ => self.field(walk, operand.index, at)?,
            };
            anchors[i + 1] = operand_end;
            end = end.max(operand_end);
        }
        if end > POSITIONS {
            return Err(refusal(TOO_FAR, start));
        }
        if end > walk.code.len() {
            return Err(refusal(SHORT, start));
        }
        if self.computes[chosen] {
            self.name_operands(walk, row, operands, &anchors);
        }
        let numbers = [0, chosen as i64, start as i64, (end - start) as i64];
        walk.rows.put(row, numbers);
        Ok((chosen, end))
    }

    /// Gives a constructor's computed operands the values that they may name.
    fn name_operands<R: Rows>(
        &self,
        walk: &mut Walk<R>,
        row: usize,
        operands: &[Operand],
        anchors: &[usize; OPERANDS + 1],
    ) {
        let mut values = [0; OPERANDS];
        for (i, operand) in operands.iter().enumerate() {
            if operand.kind == Operand::FIELD {
                let field = &self.fields[usize::from(operand.index)];
                let start = anchors[usize::from(operand.anchor)] + usize::from(operand.offset);
                let bytes = &walk.code[start..anchors[i + 1]];
                values[i] = field_value(field, walk.context, bytes);
            }
        }
        let own = walk.computed.iter_mut().filter(|c| c.user == row);
        own.for_each(|computed| computed.operands = values);
    }

    #[inline(always)]
    fn choose(&self, context: u32, code: &[u8], table: u8, start: usize) -> Result<usize, Refusal> {
        let records = self.firsts[usize::from(table)]..self.firsts[usize::from(table) + 1];
        let code = code.get(start..).unwrap_or_default();
        let number = match self.patterns.choose::<GROUP>(records, context, code) {
            Choice::Taken(record) => return Ok(record),
            Choice::Short => return Err(refusal(SHORT, start)),
            Choice::NoMatch => NO_MATCH,
            Choice::Ambiguous => AMBIGUOUS,
        };
        Err(Refusal {
            table,
            ..refusal(number, start)
        })
    }

    /// A field's end.
    #[inline(always)]
    fn field<R: Rows>(
        &self,
        walk: &mut Walk<R>,
        index: u8,
        start: usize,
    ) -> Result<usize, Refusal> {
        let field = &self.fields[usize::from(index)];
        let end = match field.is_context() {
            true => start,
            false => start + usize::from(field.width),
        };
        let row = walk.next_row()?;
        if end > POSITIONS {
            return Err(refusal(TOO_FAR, start));
        }
        if end > walk.code.len() {
            return Err(refusal(SHORT, start));
        }
        let mut value = field_value(field, walk.context, &walk.code[start..end]);
        let mut kind = 1;
        if field.look == Field::NAMES {
            value += i64::from(field.first_name);
            kind = 2;
            if self.holes[value as usize] {
                return Err(refusal(HOLE, start));
            }
        }
        walk.rows
            .put(row, [kind, index.into(), start as i64, value]);
        Ok(end)
    }
}

impl<R> Walk<'_, R> {
    /// How many bytes a gap has: to the next address without the mask's bits, or
    /// to the code's end.
    fn gap(&self, mask: i64) -> usize {
        let to_next = mask + 1 - (self.address & mask);
        self.code.len().min(to_next as usize)
    }

    #[inline(always)]
    fn next_row(&mut self) -> Result<usize, Refusal> {
        if self.used == ROWS {
            return Err(refusal(TOO_MANY_ROWS, 0));
        }
        self.used += 1;
        Ok(self.used - 1)
    }

    /// A computed operand's end. It is never farther than its constructor.
    fn computed(&mut self, user: usize, expression: u8, start: usize) -> Result<usize, Refusal> {
        let row = self.next_row()?;
        if start > self.code.len() {
            return Err(refusal(SHORT, start));
        }
        self.computed.push(Computed {
            row,
            user,
            expression,
            start,
            operands: [0; OPERANDS],
        });
        Ok(start)
    }
}

fn computes(d: &Description, constructor: &Constructor) -> bool {
    let mut operands = d.operands_of(constructor).iter();
    operands.any(|operand| operand.kind == Operand::COMPUTED)
}

/// The field's bits out of its bytes, or out of the context.
#[inline(always)]
fn field_value(field: &Field, context: u32, bytes: &[u8]) -> i64 {
    let join = |whole: u32, byte: &u8| whole << 8 | u32::from(*byte);
    let whole = match (field.source, field.order) {
        (Field::CONTEXT, _) => context,
        (_, Field::BIG) => bytes.iter().fold(0, join),
        _ => bytes.iter().rev().fold(0, join),
    };
    // The range moved to the top, then down again with or without its sign.
    let top = whole << (31 - field.high);
    let unused = 31 - (field.high - field.low);
    match field.is_signed() {
        true => i64::from(top as i32 >> unused),
        false => i64::from(top >> unused),
    }
}

fn refusal(number: u8, place: usize) -> Refusal {
    Refusal {
        number,
        place: place as u8,
        table: 0,
    }
}

#[cfg(test)]
mod tests {
    use generate::{
        address, decodable, operators_on_addresses, operators_on_constants, planted_stream,
        with_rows, Leaning, Rng, Size, EDGE_ADDRESSES,
    };
    use reference::Addresses;
    use reference::Alignment::{Eight, Four, One, Two};

    use super::*;

    const SIZE: Size = Size {
        tables: 6,
        table_constructors: 5,
        fields: 8,
        names: 20,
        text: 8,
    };

    /// The answers to every tail of the code and to a sweep over all of it.
    fn answers_alike<const GROUP: usize>(d: &Description, context: u32, address: u32, code: &[u8]) {
        let scan = Scan::<GROUP>::new(d);
        for start in 0..=code.len() {
            let rest = &code[start..];
            let mut rows = [0; ROOM];
            let found = scan.decode(context, address, rest, &mut rows);
            match reference::decode(d, context, address, rest) {
                Ok(expected) => {
                    assert_eq!(found, Ok(expected.len()), "{d:?} {context} {rest:?}");
                    assert_eq!(rows[..4 * expected.len()], *expected.as_flattened());
                }
                Err(expected) => {
                    let Refusal {
                        number,
                        place,
                        table,
                    } = found.expect_err("the reference refuses");
                    let (expected, values) = expected.number_and_values();
                    assert_eq!(u32::from(number), expected);
                    assert_eq!([u64::from(place), table.into(), 0, 0], values);
                }
            }
        }
        for alignment in [One, Two, Four, Eight] {
            for lent in [4 * code.len(), 2 * code.len() + 3, 0] {
                let mut rows = vec![0; lent];
                let number = alignment as u32;
                let (end, written, next) = scan.sweep(context, address, number, code, &mut rows);
                let expected = reference::sweep(d, context, address, alignment, code, lent / 4);
                assert_eq!(format!("{end:?}"), format!("{:?}", expected.end));
                assert_eq!((written, next), (expected.rows.len(), expected.next));
                assert_eq!(rows[..4 * written], *expected.rows.as_flattened());
            }
        }
    }

    #[test]
    fn answers_as_the_reference_does() {
        let rng = &mut Rng::new(1);
        for i in 0..2_000 {
            let d = match i % 5 {
                4 => {
                    let rows = rng.within(28..=36);
                    with_rows(rng, rows)
                }
                leaning => decodable(rng, SIZE, Leaning::ALL[leaning]),
            };
            let (code, context) = planted_stream(rng, &d, 60);
            let address = address(rng);
            answers_alike::<1>(&d, context, address, &code);
            answers_alike::<4>(&d, context, address, &code);
        }
    }

    /// Every operator on values at which something may change.
    #[test]
    fn evaluates_as_the_reference_does() {
        let all = operators_on_constants().chain(operators_on_addresses());
        for (i, expression) in all.enumerate() {
            let address = u64::from(EDGE_ADDRESSES[i % EDGE_ADDRESSES.len()]);
            let addresses = Addresses {
                of: address,
                after: address + 2,
            };
            let terms = Terms {
                address: address as i64,
                address_after: address as i64 + 2,
                operands: [0; OPERANDS],
            };
            let expected = expression.value(addresses, |_| 0);
            assert_eq!(value(&expression, &terms), expected, "{expression:?}");
        }
    }
}
