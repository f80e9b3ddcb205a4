//! Writing a description, well formed or not, to bytes.

use reference::{Description, Expression};

/// The most sections; the last may be absent.
pub const SECTIONS: usize = 7;

/// Bytes of one record of each section.
pub const RECORD_SIZES: [usize; SECTIONS] = [8, 3, 32, 4, 4, 1, 145];

/// The most records of each section.
pub const LIMITS: [usize; SECTIONS] = [256, 1024, 512, 2048, 4096, 8192, 256];

/// Number of records of each section.
pub fn counts(d: &Description) -> [usize; SECTIONS] {
    [
        d.fields.len(),
        d.names.len(),
        d.constructors.len(),
        d.operands.len(),
        d.pieces.len(),
        d.text.len(),
        d.expressions.len(),
    ]
}

/// How many sections are written: the last only if it has records.
pub fn sections(d: &Description) -> usize {
    match d.expressions.is_empty() {
        true => SECTIONS - 1,
        false => SECTIONS,
    }
}

/// Where each written section's count stands, and the end.
pub fn section_starts(d: &Description) -> Vec<usize> {
    let sizes = counts(d).into_iter().zip(RECORD_SIZES).take(sections(d));
    let mut starts = vec![0];
    for (i, (count, size)) in sizes.enumerate() {
        starts.push(starts[i] + 2 + count * size);
    }
    starts
}

pub fn bytes(d: &Description) -> Vec<u8> {
    let mut out = Vec::new();
    count(&mut out, d.fields.len());
    for f in &d.fields {
        out.extend([f.source, f.width, f.order, f.low, f.high, f.look]);
        out.extend(f.first_name.to_le_bytes());
    }
    count(&mut out, d.names.len());
    for n in &d.names {
        out.extend(n.text_offset.to_le_bytes());
        out.push(n.length);
    }
    constructors(&mut out, d);
    count(&mut out, d.operands.len());
    for o in &d.operands {
        out.extend([o.kind, o.index, o.anchor, o.offset]);
    }
    count(&mut out, d.pieces.len());
    for p in &d.pieces {
        out.extend([p.kind, p.n]);
        out.extend(p.text_offset.to_le_bytes());
    }
    count(&mut out, d.text.len());
    out.extend(&d.text);
    if sections(d) == SECTIONS {
        count(&mut out, d.expressions.len());
        d.expressions.iter().for_each(|e| expression(&mut out, e));
    }
    out
}

fn expression(out: &mut Vec<u8>, expression: &Expression) {
    out.push(expression.step_count);
    for step in &expression.steps {
        out.push(step.kind);
        out.extend(step.value.to_le_bytes());
    }
}

fn constructors(out: &mut Vec<u8>, d: &Description) {
    count(out, d.constructors.len());
    for c in &d.constructors {
        out.extend([c.table, c.minimum_length]);
        out.extend(c.pattern.byte_mask.to_le_bytes());
        out.extend(c.pattern.byte_value.to_le_bytes());
        out.extend(c.pattern.context_mask.to_le_bytes());
        out.extend(c.pattern.context_value.to_le_bytes());
        out.push(c.operand_count);
        out.extend(c.first_operand.to_le_bytes());
        out.push(c.piece_count);
        out.extend(c.first_piece.to_le_bytes());
    }
}

fn count(out: &mut Vec<u8>, count: usize) {
    out.extend((count as u16).to_le_bytes());
}
