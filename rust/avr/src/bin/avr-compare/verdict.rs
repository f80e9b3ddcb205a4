//! Judging one instruction.

use reference::{Alignment, Description, Refusal};

use crate::objdump::{Comment, Line};

pub enum Verdict {
    /// The same length and the same line to the letter.
    Same,
    /// The same but for a comment that is not shown.
    WithoutComment,
    /// A word that is no instruction: a gap here, data for objdump.
    NoMatch,
    /// A jump by twelve bits: the same but for the displacement, which is in
    /// hexadecimal where objdump has it in decimal.
    Hexadecimal,
    /// Anything else, and whether at least length and mnemonic are the same.
    Different {
        length: bool,
        mnemonic: bool,
        ours: String,
    },
}

/// Compares what the description says of two words with objdump's line.
pub fn judge(description: &Description, words: &[u16; 2], theirs: &Line) -> Verdict {
    let code = words.map(u16::to_le_bytes);
    let code = code.as_flattened();
    match decoded(description, theirs.address, code) {
        Ok((length, text)) => judge_decoded(length, text, theirs),
        Err(Refusal::NoMatch { place: 0, table })
            if table == description.root()
                && is_data(words[0], theirs)
                && gap(description, theirs.address, code) == theirs.length =>
        {
            Verdict::NoMatch
        }
        Err(refusal) => Verdict::Different {
            length: false,
            mnemonic: false,
            ours: format!("{refusal:?}"),
        },
    }
}

fn decoded(
    description: &Description,
    address: u32,
    code: &[u8],
) -> Result<(usize, String), Refusal> {
    let rows = reference::decode(description, 0, address, code)?;
    let text = reference::decode_text(description, 0, address, code)?;
    Ok((
        rows[0][3] as usize,
        String::from_utf8_lossy(&text).into_owned(),
    ))
}

/// How many bytes a sweep by words takes at once where no instruction is.
fn gap(description: &Description, address: u32, code: &[u8]) -> usize {
    let swept = reference::sweep(description, 0, address, Alignment::Two, code, 1);
    swept.rows[0][1] as usize
}

fn judge_decoded(length: usize, text: String, theirs: &Line) -> Verdict {
    let same_length = length == theirs.length;
    let may_miss = matches!(theirs.comment, Comment::Number | Comment::Undefined);
    if same_length && text == theirs.whole {
        return Verdict::Same;
    }
    if same_length && may_miss && text == theirs.text {
        return Verdict::WithoutComment;
    }
    if same_length && in_decimal(&text).as_deref() == Some(&theirs.whole) {
        return Verdict::Hexadecimal;
    }
    Verdict::Different {
        length: same_length,
        mnemonic: mnemonic(&text) == mnemonic(&theirs.text),
        ours: format!("{text:?} of {length} bytes"),
    }
}

fn is_data(opcode: u16, theirs: &Line) -> bool {
    let is_word = theirs.text == format!(".word {opcode:#06x}");
    is_word && theirs.comment == Comment::Data
}

fn mnemonic(text: &str) -> &str {
    text.split(' ').next().unwrap_or_default()
}

/// A jump by twelve bits with its displacement in decimal.
fn in_decimal(text: &str) -> Option<String> {
    let (jump, target) = text.split_once(" ; ")?;
    let (mnemonic, displacement) = jump.split_once(" .")?;
    if !matches!(mnemonic, "rjmp" | "rcall") {
        return None;
    }
    let (sign, digits) = displacement.split_once("0x")?;
    let bytes = i32::from_str_radix(&format!("{sign}{digits}"), 16).ok()?;
    Some(format!("{mnemonic} .{bytes:+} ; {target}"))
}

#[cfg(test)]
mod tests {
    use super::{judge, Verdict};
    use crate::objdump::line;

    /// The verdict on two words if objdump had this line at address 8: the
    /// kind's number, and for a difference whether length and mnemonic are the
    /// same.
    fn verdict(words: [u16; 2], said: &str) -> (u8, bool, bool) {
        let description = reference::check(&avr::description()).unwrap();
        let line = line(&format!("   8:\t{said}")).unwrap();
        match judge(&description, &words, &line) {
            Verdict::Same => (0, true, true),
            Verdict::WithoutComment => (1, true, true),
            Verdict::NoMatch => (2, true, false),
            Verdict::Hexadecimal => (3, true, true),
            Verdict::Different {
                length, mnemonic, ..
            } => (4, length, mnemonic),
        }
    }

    #[test]
    fn allowed() {
        let kind = |words, said| verdict(words, said).0;
        assert_eq!(kind([0x0c01, 0], "01 0c \tadd\tr0, r1"), 0);
        assert_eq!(kind([0xf3f9, 0], "f9 f3 \tbreq\t.-2  \t;  0x8"), 0);
        assert_eq!(kind([0x940c, 0], "0c 94 00 00 \tjmp\t0\t;  0x0"), 0);
        assert_eq!(kind([0xe005, 0], "05 e0 \tldi\tr16, 0x05\t; 5"), 1);
        assert_eq!(kind([0x91ad, 0], "ad 91 \tld\tr26, X+\t; undefined"), 1);
        assert_eq!(kind([1, 0], "01 00 \t.word\t0x0001\t; ????"), 2);
        assert_eq!(kind([0xc001, 0], "01 c0 \trjmp\t.+2  \t;  0xc"), 3);
        assert_eq!(kind([0xdfff, 0], "ff df \trcall\t.-2  \t;  0x8"), 3);
    }

    #[test]
    fn different() {
        let (add, rjmp, no) = ([0x0c01, 0], [0xc001, 0], [1, 0]);
        let differences = [
            (add, "01 0c \tadd\tr0, r2", (true, true)),
            (add, "01 0c \tadc\tr0, r1", (true, false)),
            (add, "01 0c 00 00 \tadd\tr0, r1", (false, true)),
            (add, "01 0c \tadd\tr0, r1\t; ????", (true, true)),
            (add, "01 0c \tadd\tr0, r1\t;  0x8", (true, true)),
            (rjmp, "01 c0 \trjmp\t.+4  \t;  0xc", (true, true)),
            (rjmp, "01 c0 \trjmp\t.+2  \t;  0xe", (true, true)),
            (rjmp, "01 c0 \trjmp\t.+2", (true, true)),
            (rjmp, "01 c0 00 00 \trjmp\t.+2  \t;  0xc", (false, true)),
            ([0xf3f9, 0], "f9 f3 \tbreq\t.-2  \t;  0xa", (true, true)),
            (no, "01 00 \t.word\t0x0002\t; ????", (false, false)),
            (no, "01 \t.word\t0x0001\t; ????", (false, false)),
            (no, "01 00 \tnop", (false, false)),
            ([0, 0], "00 00 \t.word\t0x0000\t; ????", (true, false)),
        ];
        for (words, said, (length, mnemonic)) in differences {
            assert_eq!(verdict(words, said), (4, length, mnemonic), "{said}");
        }
    }
}
