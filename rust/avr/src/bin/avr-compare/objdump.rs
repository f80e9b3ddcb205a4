//! What objdump says.

use std::fmt::{Display, Formatter};
use std::path::Path;
use std::process::Command;

const PROGRAM: &str = "avr-objdump";

/// It shows the whole instruction set for every architecture but avr:100, which
/// has short forms of lds and sts instead of half of ldd and std.
pub const MACHINE: &str = "avr:5";

/// An instruction's two words and two of nop, so that the next one starts
/// cleanly however long this one is.
const STEP: u32 = 8;

/// One line of the disassembly, with one blank for blanks and tabs.
pub struct Line {
    pub address: u32,
    pub length: usize,
    /// Mnemonic and operands.
    pub text: String,
    /// The same with what stands behind the semicolon.
    pub whole: String,
    pub comment: Comment,
}

/// What objdump adds behind a semicolon.
#[derive(Clone, Copy, Debug, PartialEq, Eq)]
pub enum Comment {
    /// An operand again in another base.
    Number,
    /// A register that the instruction uses and changes at once.
    Undefined,
    /// No instruction.
    Data,
    /// Nothing, or an address, which has one blank more before it.
    Other,
}

impl Comment {
    fn of(said: &str) -> Comment {
        let number = said.strip_prefix(' ').unwrap_or_default();
        let number = number.strip_prefix("0x").unwrap_or(number);
        match said {
            " undefined" => Comment::Undefined,
            " ????" => Comment::Data,
            _ if u32::from_str_radix(number, 16).is_ok() => Comment::Number,
            _ => Comment::Other,
        }
    }
}

impl Display for Line {
    fn fmt(&self, f: &mut Formatter<'_>) -> std::fmt::Result {
        let (whole, length) = (&self.whole, self.length);
        write!(f, "{whole:?} of {length} bytes")
    }
}

/// The first line of what it says of itself.
pub fn version() -> Result<String, String> {
    let said = run(Command::new(PROGRAM).arg("--version"))?;
    Ok(said.lines().next().unwrap_or_default().to_string())
}

/// The line of each instruction, given as its two words.
pub fn disassemble(instructions: &[[u16; 2]]) -> Result<Vec<Line>, String> {
    let file = format!("avr-compare-{}.bin", std::process::id());
    let path = std::env::temp_dir().join(file);
    let code = instructions.iter().flat_map(|&[opcode, second]| {
        let words = [opcode, second, 0, 0].map(u16::to_le_bytes);
        words.into_iter().flatten()
    });
    let written = std::fs::write(&path, code.collect::<Vec<u8>>());
    let said = match written {
        Ok(()) => disassemble_file(&path),
        Err(error) => Err(format!("{}: {error}", path.display())),
    };
    // Whether it could be removed changes nothing.
    let _ = std::fs::remove_file(&path);
    lines(&said?, instructions.len())
}

fn disassemble_file(path: &Path) -> Result<String, String> {
    let options = ["-D", "-z", "-b", "binary", "-m", MACHINE];
    run(Command::new(PROGRAM).args(options).arg(path))
}

fn run(command: &mut Command) -> Result<String, String> {
    let output = command
        .output()
        .map_err(|error| format!("{PROGRAM}: {error}"))?;
    if !output.status.success() {
        let said = String::from_utf8_lossy(&output.stderr);
        return Err(format!("{PROGRAM}: {}, {said}", output.status));
    }
    String::from_utf8(output.stdout).map_err(|error| format!("{PROGRAM}: {error}"))
}

/// The lines at the starts of instructions: each must have one.
fn lines(said: &str, count: usize) -> Result<Vec<Line>, String> {
    let starts = said.lines().filter_map(line);
    let starts = starts.filter(|line| line.address.is_multiple_of(STEP));
    let lines: Vec<Line> = (0..)
        .step_by(STEP as usize)
        .zip(starts)
        .take_while(|(address, line)| line.address == *address)
        .map(|(_, line)| line)
        .collect();
    match lines.len() == count {
        true => Ok(lines),
        false => Err(format!("no line at {:#x}", lines.len() * STEP as usize)),
    }
}

/// Address, bytes, mnemonic, operands and comment stand between tabs. Nothing
/// for a line that is no instruction.
pub fn line(said: &str) -> Option<Line> {
    let (address, rest) = said.split_once(":\t")?;
    let (bytes, whole) = rest.split_once('\t')?;
    let (text, comment) = whole.split_once(';').unwrap_or((whole, ""));
    Some(Line {
        address: u32::from_str_radix(address.trim(), 16).ok()?,
        length: bytes.split_whitespace().count(),
        text: one_blank(text),
        whole: one_blank(whole),
        comment: Comment::of(comment),
    })
}

fn one_blank(text: &str) -> String {
    let words: Vec<&str> = text.split_whitespace().collect();
    words.join(" ")
}

#[cfg(test)]
mod tests {
    use super::{line, lines, Comment};

    #[test]
    fn parts_of_a_line() {
        let line = line("   60008:\t01 c0       \trjmp\t.+2      \t;  0x6000c").unwrap();
        assert_eq!((line.address, line.length), (0x60008, 2));
        assert_eq!(line.text, "rjmp .+2");
        assert_eq!(line.whole, "rjmp .+2 ; 0x6000c");
    }

    #[test]
    fn comments() {
        let comment = |text: &str| line(&format!(" 8:\t00 00 \tx{text}")).unwrap().comment;
        assert_eq!(comment(""), Comment::Other);
        assert_eq!(comment("\t; 255"), Comment::Number);
        assert_eq!(comment("\t; 0x3f"), Comment::Number);
        assert_eq!(comment("\t;  0x800000"), Comment::Other);
        assert_eq!(comment("\t; undefined"), Comment::Undefined);
        assert_eq!(comment("\t; ????"), Comment::Data);
        assert_eq!(comment("\t; zero"), Comment::Other);
    }

    #[test]
    fn every_start_has_a_line() {
        let said = "all.bin: file\n\n 0:\t00 00 \tnop\n 2:\t00 00 \tnop\n 8:\t00 00 \tnop\n";
        assert_eq!(lines(said, 2).map(|lines| lines.len()), Ok(2));
        let missing = lines(said, 3).map(|lines| lines.len());
        assert_eq!(missing, Err("no line at 0x10".to_string()));
    }
}
