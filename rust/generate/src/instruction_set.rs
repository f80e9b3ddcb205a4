//! Descriptions like that of a processor, for timing.

use reference::{Constructor, Description, Field, Operand, Pattern};

use crate::example::{constructor, field, literal, name, operand, shown};
use crate::planted::planted;
use crate::Rng;

/// One table of so many constructors (1 to 512). Opcodes are the upper five
/// bits of the first byte, the whole byte, or that and half of the second;
/// some have specials inside, by operand bits or by a context bit.
pub fn instruction_set(constructors: usize) -> Description {
    let rng = &mut Rng::new(constructors as u64);
    let mut d = Description {
        fields: vec![
            field(0, 1, 0, 0, 2, Field::NAMES),
            field(0, 1, 0, 0, 7, Field::SIGNED_HEX),
            field(0, 1, 0, 0, 3, Field::UNSIGNED_DECIMAL),
            field(0, 2, 1, 0, 15, Field::UNSIGNED_HEX),
        ],
        names: (0..8).map(|register| name(2 + 2 * register, 2)).collect(),
        operands: vec![
            operand(Operand::FIELD, 0, 0, 0),
            operand(Operand::FIELD, 1, 1, 0),
            operand(Operand::FIELD, 2, 0, 1),
            operand(Operand::FIELD, 3, 1, 0),
        ],
        text: b", r0r1r2r3r4r5r6r7".to_vec(),
        ..Description::default()
    };
    for pattern in opcodes().take(constructors) {
        let constructor = instruction(rng, &mut d, pattern);
        d.constructors.push(constructor);
    }
    assert_eq!(d.constructors.len(), constructors);
    d
}

/// So many constructors (8 to 512) in three tables: an instruction set in which
/// the second operands are tables. Table 0 is a displacement of one byte or
/// two, table 1 a mode: a register, a byte, a register with a displacement, or
/// two registers with one.
pub fn nested_instruction_set(constructors: usize) -> Description {
    const INNER: usize = 6;
    let mut d = instruction_set(constructors - INNER);
    for constructor in &mut d.constructors {
        constructor.table = 2;
    }
    for second in [1, 3] {
        d.operands[second] = operand(Operand::TABLE, 1, 1, 0);
    }
    let fields = d.fields.len() as u8;
    d.fields.extend([
        field(0, 1, 0, 0, 6, Field::SIGNED_HEX),
        field(0, 2, 1, 0, 14, Field::SIGNED_HEX),
        field(0, 1, 0, 3, 5, Field::NAMES),
    ]);
    let first = d.operands.len() as u16;
    d.operands.extend([
        operand(Operand::FIELD, fields, 0, 0),
        operand(Operand::FIELD, fields + 1, 0, 0),
        operand(Operand::FIELD, 1, 0, 1),
        operand(Operand::FIELD, 0, 0, 0),
        operand(Operand::TABLE, 0, 0, 1),
        operand(Operand::FIELD, 0, 0, 0),
        operand(Operand::FIELD, fields + 2, 0, 0),
        operand(Operand::TABLE, 0, 0, 1),
    ]);
    let pieces = d.pieces.len() as u16;
    d.pieces.extend([1, 2, 3].map(shown));
    let inner: [Constructor; INNER] = [
        constructor(0, 1, (0x80, 0x00), (first, 1), (pieces, 1)),
        constructor(0, 2, (0x80, 0x80), (first + 1, 1), (pieces, 1)),
        constructor(1, 1, (0xc0, 0x00), (first + 3, 1), (pieces, 1)),
        constructor(1, 2, (0xc0, 0x40), (first + 2, 1), (pieces, 1)),
        constructor(1, 1, (0xc0, 0x80), (first + 3, 2), (pieces, 2)),
        constructor(1, 1, (0xc0, 0xc0), (first + 5, 3), (pieces, 3)),
    ];
    d.constructors.splice(..0, inner);
    d
}

/// So many instructions one after the other that decode in this context, and
/// where they start.
pub fn instruction_stream(
    rng: &mut Rng,
    d: &Description,
    context: u32,
    count: usize,
) -> (Vec<u8>, Vec<usize>) {
    let (mut code, mut starts) = (Vec::new(), Vec::new());
    while starts.len() < count {
        let (bytes, _) = planted(rng, d, 16);
        if let Ok(rows) = reference::decode(d, context, 0, &bytes) {
            let length = rows[0][3] as usize;
            starts.push(code.len());
            code.extend(&bytes[..length]);
        }
    }
    // No pattern of the last one misses a byte.
    code.extend([0; 8]);
    (code, starts)
}

/// Code that starts with an instruction at each of so many places.
pub fn instruction_starts(rng: &mut Rng, d: &Description, count: usize) -> (Vec<u8>, Vec<usize>) {
    let (mut code, mut starts) = (Vec::new(), Vec::new());
    for _ in 0..count {
        let pattern = rng.pick(&d.constructors).pattern;
        let bytes = pattern.byte_value | rng.word() & !pattern.byte_mask;
        starts.push(code.len());
        code.extend(&bytes.to_le_bytes()[..rng.within(2..=4)]);
    }
    // No pattern of the last one misses a byte.
    code.extend([0; 8]);
    (code, starts)
}

fn opcodes() -> impl Iterator<Item = Pattern> {
    let five_bits = (0x00..0x80).step_by(8).flat_map(|first| {
        [
            bytes(0xf8, first),
            bytes(0xff, first | 5),
            bytes(0xff, first | 7),
        ]
    });
    let whole_byte = (0x80..0xc0).map(|first| bytes(0xff, first));
    let by_context = (0x80..0x88).map(|first| Pattern {
        context_mask: 1,
        context_value: 1,
        ..bytes(0xff, first)
    });
    let two_bytes = (0xc0..=0xff).flat_map(|first| {
        let half = (0..16).map(move |half| bytes(0xf0ff, first | half << 12));
        let special = [7, 15].map(|half| bytes(0xffff, first | half << 12 | 0x0f00));
        half.chain(special)
    });
    five_bits
        .chain(whole_byte)
        .chain(by_context)
        .chain(two_bytes)
}

fn bytes(byte_mask: u64, byte_value: u64) -> Pattern {
    Pattern {
        byte_mask,
        byte_value,
        ..Pattern::default()
    }
}

/// Shows four letters and, where the opcode leaves bits of its last byte,
/// two operands.
fn instruction(rng: &mut Rng, d: &mut Description, pattern: Pattern) -> Constructor {
    let first_operand = 2 * (pattern.masked_length() as u16 - 1);
    let whole_bytes = pattern.byte_mask.count_ones().is_multiple_of(8);
    let first_piece = d.pieces.len() as u16;
    d.pieces.push(literal(d.text.len() as u16, 4));
    d.text.extend((0..4).map(|_| rng.byte_within(b'a'..=b'z')));
    if !whole_bytes {
        d.pieces.extend([shown(1), literal(0, 2), shown(2)]);
    }
    Constructor {
        table: 0,
        minimum_length: pattern.masked_length() as u8,
        pattern,
        operand_count: if whole_bytes { 0 } else { 2 },
        first_operand,
        piece_count: (d.pieces.len() as u16 - first_piece) as u8,
        first_piece,
    }
}
