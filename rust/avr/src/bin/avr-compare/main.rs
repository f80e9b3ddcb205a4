//! Compares the description of AVR with GNU objdump, opcode by opcode. Only the
//! differences that `docs/AVR.md` lists are allowed; any other is a failure.

mod objdump;
mod verdict;

use std::fmt::{Display, Formatter};
use std::process::ExitCode;

use objdump::Comment;
use reference::Description;
use verdict::{judge, Verdict};

/// What stands behind every opcode.
const SECOND_WORD: u16 = 0x1234;

/// Differences that are written out.
const SHOWN: usize = 20;

fn main() -> ExitCode {
    match compare() {
        Ok(0) => ExitCode::SUCCESS,
        Ok(_) => ExitCode::FAILURE,
        Err(error) => {
            eprintln!("{error}");
            ExitCode::FAILURE
        }
    }
}

/// The number of differences that are not allowed.
fn compare() -> Result<usize, String> {
    let description = match reference::check(&avr::description()) {
        Ok(description) => description,
        Err(fault) => return Err(format!("the description is not well formed: {fault:?}")),
    };
    println!("{}, -m {}", objdump::version()?, objdump::MACHINE);
    let every = (0..=u16::MAX).map(|opcode| [opcode, SECOND_WORD]);
    let first = Counts::of(&description, every.collect())?;
    println!("every opcode, then {SECOND_WORD:#06x}\n{first}");
    let long = (0..=u16::MAX).filter(|&opcode| is_long(&description, opcode));
    let long = long.flat_map(|opcode| second_words().map(move |second| [opcode, second]));
    let second = Counts::of(&description, long.collect())?;
    println!("every opcode of four bytes, then other words\n{second}");
    let back = (0xc800..=0xcfff).chain(0xd800..=0xdfff);
    let third = Counts::of(&description, back.map(|opcode| [opcode, 0]).collect())?;
    println!("every jump back by twelve bits, from address 0 on\n{third}");
    Ok(first.different + second.different + third.different)
}

fn is_long(description: &Description, opcode: u16) -> bool {
    let code = [opcode.to_le_bytes(), SECOND_WORD.to_le_bytes()];
    match reference::decode(description, 0, 0, code.as_flattened()) {
        Ok(rows) => rows[0][3] == 4,
        Err(_) => false,
    }
}

/// Numbers of each length, so that each digit is there, is zero and is left out.
fn second_words() -> impl Iterator<Item = u16> {
    let bits = (0..u16::BITS).map(|bit| 1_u16 << bit);
    let around = bits.flat_map(|bit| [bit, bit - 1, !bit]);
    around.chain([0xabcd, 0x0bcd, 0x00cd, 0x000d])
}

/// How many opcodes agree in what.
#[derive(Default)]
struct Counts {
    all: usize,
    lengths: usize,
    mnemonics: usize,
    lines: usize,
    texts: usize,
    no_match: usize,
    hexadecimal: usize,
    numbers: usize,
    undefined: usize,
    different: usize,
}

impl Counts {
    fn of(description: &Description, instructions: Vec<[u16; 2]>) -> Result<Counts, String> {
        let mut counts = Counts::default();
        let disassembled = objdump::disassemble(&instructions)?;
        for (words, theirs) in instructions.iter().zip(&disassembled) {
            counts.all += 1;
            let verdict = judge(description, words, theirs);
            counts.add(&verdict, theirs.comment);
            if let Verdict::Different { ours, .. } = verdict {
                if counts.different <= SHOWN {
                    println!("{words:04x?}: {ours}, objdump {theirs}");
                }
            }
        }
        Ok(counts)
    }

    fn add(&mut self, verdict: &Verdict, comment: Comment) {
        let (length, mnemonic, count) = match verdict {
            Verdict::Same => (true, true, &mut self.lines),
            Verdict::WithoutComment if comment == Comment::Number => {
                (true, true, &mut self.numbers)
            }
            Verdict::WithoutComment => (true, true, &mut self.undefined),
            Verdict::NoMatch => (true, false, &mut self.no_match),
            Verdict::Hexadecimal => (true, true, &mut self.hexadecimal),
            Verdict::Different {
                length, mnemonic, ..
            } => (*length, *mnemonic, &mut self.different),
        };
        *count += 1;
        self.lengths += usize::from(length);
        self.mnemonics += usize::from(mnemonic);
        let same_text = matches!(verdict, Verdict::Same | Verdict::WithoutComment);
        self.texts += usize::from(same_text);
    }
}

impl Display for Counts {
    fn fmt(&self, f: &mut Formatter<'_>) -> std::fmt::Result {
        let lines = [
            ("instructions", self.all),
            ("length agrees", self.lengths),
            ("mnemonic agrees", self.mnemonics),
            ("whole line agrees", self.lines),
            ("text before the comment agrees", self.texts),
            ("class 1: no match for .word", self.no_match),
            ("class 2: hexadecimal displacement", self.hexadecimal),
            ("class 3: number not given again", self.numbers),
            ("class 4: not called undefined", self.undefined),
            ("other differences", self.different),
        ];
        for (name, count) in lines {
            writeln!(f, "  {name:<33}{count:>6}")?;
        }
        Ok(())
    }
}
