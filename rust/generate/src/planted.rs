//! Code in which a walk finds what it needs.

use reference::{Description, Operand, Pattern};

use crate::Rng;

/// The most constructors that a walk is prepared for.
const CONSTRUCTORS: usize = 33;

/// The longest instruction.
const INSTRUCTION: usize = 16;

/// So many bytes of code, and a context: random ones, with the bits that a
/// constructor of each table asks for at the place where a walk comes to it.
/// Later ones may spoil what earlier ones need.
pub fn planted(rng: &mut Rng, d: &Description, length: usize) -> (Vec<u8>, u32) {
    let any = rng.word() as u32;
    let context = rng.pick(&[0, any, any, u32::MAX]);
    let code = match rng.below(8) {
        0 => vec![rng.pick(&[0, 0xff]); length],
        _ => (0..length).map(|_| rng.byte()).collect(),
    };
    let mut planting = Planting {
        rng,
        description: d,
        code,
        context,
        left: CONSTRUCTORS,
    };
    planting.table(d.root(), 0);
    (planting.code, planting.context)
}

/// So many bytes of code, and a context: planted instructions one behind the
/// other in the context of the first, most of them whole.
pub fn planted_stream(rng: &mut Rng, d: &Description, length: usize) -> (Vec<u8>, u32) {
    let (mut stream, context) = (Vec::new(), planted(rng, d, 0).1);
    while stream.len() < length {
        let (code, _) = planted(rng, d, INSTRUCTION);
        let end = match reference::decode(d, context, 0, &code) {
            Ok(rows) if !rng.once_in(8) => rows[0][3] as usize,
            _ => rng.within(1..=INSTRUCTION),
        };
        stream.extend(&code[..end]);
    }
    stream.truncate(length);
    (stream, context)
}

struct Planting<'a> {
    rng: &'a mut Rng,
    description: &'a Description,
    code: Vec<u8>,
    context: u32,
    left: usize,
}

impl Planting<'_> {
    /// Where some constructor of the table ends.
    fn table(&mut self, table: u32, start: usize) -> usize {
        if self.left == 0 {
            return start;
        }
        self.left -= 1;
        let d = self.description;
        let records = d.table(table).expect("a walk's tables exist");
        let constructor = &d.constructors[self.rng.within(records.start..=records.end - 1)];
        self.pattern(&constructor.pattern, start);
        let mut anchors = vec![start];
        for operand in d.operands_of(constructor) {
            let at = anchors[usize::from(operand.anchor)] + usize::from(operand.offset);
            anchors.push(self.operand(operand, at));
        }
        let minimum = start + usize::from(constructor.minimum_length);
        anchors.into_iter().fold(minimum, usize::max)
    }

    fn operand(&mut self, operand: &Operand, start: usize) -> usize {
        match operand.kind {
            Operand::TABLE => return self.table(operand.index.into(), start),
            Operand::COMPUTED => return start,
            _ => {}
        }
        let field = &self.description.fields[usize::from(operand.index)];
        match field.is_context() {
            true => start,
            false => start + usize::from(field.width),
        }
    }

    fn pattern(&mut self, pattern: &Pattern, start: usize) {
        let masks = pattern.byte_mask.to_le_bytes();
        let values = pattern.byte_value.to_le_bytes();
        let code = self.code.iter_mut().skip(start);
        for (byte, (mask, value)) in code.zip(masks.into_iter().zip(values)) {
            *byte = *byte & !mask | value;
        }
        self.context = self.context & !pattern.context_mask | pattern.context_value;
    }
}
