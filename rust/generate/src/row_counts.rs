//! Instructions of an exact number of rows.

use reference::{Constructor, Description, Field, Operand, Pattern};

use crate::example::{field, name, operand, shown};
use crate::write::bytes;
use crate::Rng;

const LENGTH: usize = 16;

/// A description that decodes any code of 16 bytes to so many rows (1 to 63),
/// unless those are too many: each table has one constructor, which matches
/// everything and shows its operands, the last one first; no name is a hole.
pub fn with_rows(rng: &mut Rng, rows: usize) -> Description {
    let mut d = Description {
        text: b"ab".to_vec(),
        names: vec![name(0, 1), name(1, 1), name(0, 2), name(0, 1)],
        ..Description::default()
    };
    d.fields = (0..4).map(|_| some_field(rng)).collect();
    let widest = rng.pick(&[1, 2, 3, 8, 8]);
    let mut tower = Tower {
        rng,
        d,
        widest,
        tables: Vec::new(),
    };
    let root = tower.table(rows, LENGTH);
    let mut d = tower.d;
    // A root has a length.
    d.constructors[root].minimum_length = d.constructors[root].minimum_length.max(1);
    assert!(
        reference::check(&bytes(&d)).is_ok(),
        "not well formed: {d:?}"
    );
    d
}

fn some_field(rng: &mut Rng) -> Field {
    if rng.once_in(3) {
        return field(1, 4, 0, 30, 31, rng.byte_within(0..=4));
    }
    let width = rng.byte_within(1..=4);
    let order = rng.byte_within(0..=1);
    field(0, width, order, 3, 4, rng.byte_within(0..=4))
}

/// What a table's constructor comes to.
#[derive(Clone, Copy)]
struct Measure {
    rows: usize,
    length: usize,
}

struct Tower<'a> {
    rng: &'a mut Rng,
    d: Description,
    /// The most operands of a constructor.
    widest: usize,
    tables: Vec<Measure>,
}

impl Tower<'_> {
    /// A table of so many rows that is no longer than the room; the last one
    /// made, or an earlier one.
    fn table(&mut self, rows: usize, room: usize) -> usize {
        let found = self.rng.index_where(self.tables.len(), |i| {
            self.tables[i].rows == rows && self.tables[i].length <= room
        });
        match found {
            Some(table) if self.rng.once_in(2) => table,
            _ => self.new_table(rows, room),
        }
    }

    fn new_table(&mut self, rows: usize, room: usize) -> usize {
        let mut operands = Vec::new();
        // Where the anchors stand: the start, then operand ends.
        let mut anchors = vec![0];
        for rows in parts(self.rng, rows - 1, self.widest) {
            let (operand, end) = self.operand(rows, room, &anchors);
            operands.push(operand);
            anchors.push(end);
        }
        let farthest = anchors.into_iter().fold(0, usize::max);
        let minimum = match self.rng.once_in(4) {
            true => self.rng.within(0..=room),
            false => 0,
        };
        let count = operands.len() as u8;
        self.d.constructors.push(Constructor {
            table: self.tables.len() as u8,
            minimum_length: minimum as u8,
            pattern: Pattern::default(),
            operand_count: count,
            first_operand: self.d.operands.len() as u16,
            piece_count: count,
            first_piece: self.d.pieces.len() as u16,
        });
        self.d.operands.extend(operands);
        self.d.pieces.extend((1..=count).rev().map(shown));
        self.tables.push(Measure {
            rows,
            length: farthest.max(minimum),
        });
        self.tables.len() - 1
    }

    /// An operand of so many rows, and its end inside the room.
    fn operand(&mut self, rows: usize, room: usize, anchors: &[usize]) -> (Operand, usize) {
        let fields = &self.d.fields;
        let fitting = self.rng.index_where(fields.len(), |i| {
            fields[i].is_context() || usize::from(fields[i].width) <= room
        });
        let (kind, index, length) = match fitting {
            Some(index) if rows == 1 && !self.rng.once_in(4) => {
                if fields[index].is_context() {
                    return (operand(Operand::FIELD, index as u8, 0, 0), 0);
                }
                (Operand::FIELD, index, usize::from(fields[index].width))
            }
            _ => {
                let room = self.rng.within(0..=room);
                let table = self.table(rows, room);
                (Operand::TABLE, table, self.tables[table].length)
            }
        };
        let anchor = self
            .rng
            .index_where(anchors.len(), |i| anchors[i] + length <= room)
            .expect("the start leaves all of the room");
        let space = room - anchors[anchor] - length;
        let offset = match self.rng.once_in(2) {
            true => self.rng.within(0..=space.min(15)),
            false => 0,
        };
        let end = anchors[anchor] + offset + length;
        (operand(kind, index as u8, anchor as u8, offset as u8), end)
    }
}

/// At most so many numbers above 0 with this sum.
pub fn parts(rng: &mut Rng, sum: usize, most: usize) -> Vec<usize> {
    if sum == 0 {
        return Vec::new();
    }
    let mut parts = vec![1; rng.within(1..=most.min(sum))];
    for _ in parts.len()..sum {
        let part = rng.below(parts.len());
        parts[part] += 1;
    }
    parts
}
