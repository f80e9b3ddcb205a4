//! The AVR description on every opcode.

use reference::requests;

use crate::agreed::{agreed, hex};
use crate::lent::{agreed_sweep, agreed_with_lent, Given};
use crate::tally::Tally;

const COLUMNS: &[&str] = &["done", "short", "no match"];

/// What stands behind every opcode.
const SECOND_WORD: u16 = 0x1234;

const CONTEXT: u32 = 0;

/// Numbers for the most rows, and bytes for the longest text.
const ROWS: usize = 128;
const TEXT: usize = 256;

const ROW_NUMBERS: usize = 4;

/// The alignment of the instruction set.
const WORD: u32 = 2;

/// Compares decoding, text and asking the root on every opcode, those of four
/// bytes also cut, and sweeps over all of them and over the instructions, by
/// bytes and by words.
pub fn compare() {
    let description = avr::description();
    let checked = reference::check(&description).expect("it is well formed");
    let mut opcodes = Opcodes {
        root: checked.root(),
        description,
        tally: Tally::new(COLUMNS),
    };
    let (mut all, mut instructions) = (Vec::new(), Vec::new());
    for opcode in 0..=u16::MAX {
        let code = [opcode.to_le_bytes(), SECOND_WORD.to_le_bytes()];
        let code = code.as_flattened();
        // As if the opcodes stood one behind the other.
        let address = code.len() as u32 * u32::from(opcode);
        let length = opcodes.one(["decode", "text", "ask"], address, code);
        if length == Some(4) {
            for cut in [2, 3] {
                let kinds = ["decode, cut", "text, cut", "ask, cut"];
                opcodes.one(kinds, address, &code[..cut]);
            }
        }
        all.extend(code);
        instructions.extend(&code[..length.unwrap_or(0)]);
    }
    // Behind an opcode that is none, a sweep by bytes leaves the grid of words.
    opcodes.sweep("swept, all", 0, 1, &all);
    opcodes.sweep("swept, instructions", u32::MAX, 1, &instructions);
    opcodes.sweep("by words, all", 0, WORD, &all);
    opcodes.sweep("by words, instructions", u32::MAX - 1, WORD, &instructions);
    print!("{}", opcodes.tally);
}

struct Opcodes {
    description: Vec<u8>,
    root: u32,
    tally: Tally,
}

impl Opcodes {
    /// Compares the three requests, and gives the length if there is an
    /// instruction.
    fn one(
        &mut self,
        [decode, text, ask]: [&'static str; 3],
        address: u32,
        code: &[u8],
    ) -> Option<usize> {
        let given = |kind| Given::new(kind, &self.description, CONTEXT, address, code);
        let (decoded, _, rows) =
            agreed_with_lent(&given(decode), ROWS, requests::rows, dookerand::decode);
        let (shown, ..) = agreed_with_lent(&given(text), TEXT, requests::text, dookerand::text);
        let expected = requests::ask(&self.description, self.root, CONTEXT, code);
        let answer = dookerand::ask(&self.description, self.root, CONTEXT, code);
        let request = || format!("code {}", hex(code));
        let (asked, _) = agreed(ask, request, &self.description, &expected, answer);
        for (kind, number) in [(decode, decoded), (text, shown), (ask, asked)] {
            self.tally.count(kind, number.saturating_sub(1) as usize);
        }
        (decoded == 0).then(|| rows[3] as usize)
    }

    /// Compares one sweep, and counts its rows.
    fn sweep(&mut self, kind: &'static str, address: u32, alignment: u32, code: &[u8]) {
        let given = Given {
            alignment,
            ..Given::new(kind, &self.description, CONTEXT, address, code)
        };
        let lent = ROW_NUMBERS * code.len();
        let (number, [_, written, ..], rows) = agreed_sweep(&given, lent);
        assert_eq!(number, 0, "the description is well formed");
        for row in rows.chunks(ROW_NUMBERS).take(written as usize) {
            // Instructions are whole words, so the sweep stays on the grid.
            assert_eq!(row[0] % i64::from(alignment), 0, "the reference");
            self.tally.count(kind, (row[2] as usize).saturating_sub(1));
        }
    }
}
