//! Programs that disassemble a whole code, in one process or several. What they
//! write is thrown away.

use std::fmt::Write as _;
use std::io::{ErrorKind, Write as _};
use std::path::{Path, PathBuf};
use std::process::{Command, Stdio};

use generate::Rng;

/// Where the listing program is, from this crate's directory on.
const LISTING: &str = "../../target/bin/listing";
/// The most code that it lists.
const LISTED: usize = 4096;

const OBJDUMP: &str = "avr-objdump";
const OBJDUMP_OPTIONS: [&str; 5] = ["-D", "-b", "binary", "-m", "avr:5"];

/// Capstone's program.
const CSTOOL: &str = "cstool";
/// It takes code as an argument in hex; arguments are shorter than 128 KiB.
const ARGUMENT: usize = 16 * 1024;

/// Bytes of x86-64 instructions, each with the bits that may be any, and how
/// many bytes of a number follow.
const X86_64: [(&[[u8; 2]], usize); 14] = [
    (&[[0x48, 0], [0x89, 0], [0xc0, 0x3f]], 0),
    (&[[0x48, 0], [0x01, 0], [0xc0, 0x3f]], 0),
    (&[[0x48, 0], [0x39, 0], [0xc0, 0x3f]], 0),
    (&[[0x31, 0], [0xc0, 0x3f]], 0),
    (&[[0x48, 0], [0x8b, 0], [0x45, 0x38]], 1),
    (&[[0x48, 0], [0x89, 0], [0x45, 0x38]], 1),
    (&[[0x48, 0], [0x8d, 0], [0x85, 0x38]], 4),
    (&[[0x83, 0], [0xc0, 0x3f]], 1),
    (&[[0xb8, 0x07]], 4),
    (&[[0x50, 0x0f]], 0),
    (&[[0x70, 0x0f]], 1),
    (&[[0x0f, 0], [0x80, 0x0f]], 4),
    (&[[0xe8, 0]], 4),
    (&[[0xc3, 0]], 0),
];

pub struct Program {
    pub name: &'static str,
    pub writes: String,
    path: PathBuf,
    /// Arguments and input of each process.
    runs: Vec<(Vec<String>, Vec<u8>)>,
    /// What its processes read.
    _file: Option<Temporary>,
}

impl Program {
    /// Runs every process to its end.
    pub fn run(&self) {
        for (arguments, input) in &self.runs {
            if let Err(error) = self.run_one(arguments, input) {
                panic!("{}: {error}", self.path.display());
            }
        }
    }

    fn run_one(&self, arguments: &[String], input: &[u8]) -> Result<(), String> {
        let mut command = Command::new(&self.path);
        command.args(arguments).stdin(Stdio::piped());
        command.stdout(Stdio::null()).stderr(Stdio::null());
        let mut child = command.spawn().map_err(|error| error.to_string())?;
        let mut stdin = child.stdin.take().expect("it is piped");
        stdin.write_all(input).map_err(|error| error.to_string())?;
        drop(stdin);
        let status = child.wait().map_err(|error| error.to_string())?;
        match status.success() {
            true => Ok(()),
            false => Err(status.to_string()),
        }
    }
}

/// The proved program, on parts of whole instructions.
pub fn listing(description: &[u8], code: &[u8], starts: &[usize]) -> Result<Program, String> {
    let path = Path::new(env!("CARGO_MANIFEST_DIR")).join(LISTING);
    if !path.is_file() {
        return Err(
            "proved listing: not built, not timed; tools/build builds it".to_string(),
        );
    }
    let length = (description.len() as u16).to_le_bytes();
    let runs: Vec<_> = parts(code, starts, LISTED)
        .map(|part| (Vec::new(), [&length, description, part].concat()))
        .collect();
    Ok(Program {
        name: "proved listing",
        writes: format!("lines, {} processes of up to {LISTED} bytes", runs.len()),
        path,
        runs,
        _file: None,
    })
}

/// GNU objdump, on all of it.
pub fn objdump(code: &[u8]) -> Result<Program, String> {
    let version = version(OBJDUMP, "--version")?;
    let file = Temporary::new(code)?;
    let mut arguments = OBJDUMP_OPTIONS.map(str::to_string).to_vec();
    arguments.push(file.0.display().to_string());
    Ok(Program {
        name: OBJDUMP,
        writes: format!(
            "lines, one process: {version}, {}",
            OBJDUMP_OPTIONS.join(" "),
        ),
        path: OBJDUMP.into(),
        runs: vec![(arguments, Vec::new())],
        _file: Some(file),
    })
}

/// Capstone, on about as much code of another processor.
pub fn cstool(bytes: usize) -> Result<Program, String> {
    let version = version(CSTOOL, "-v").map_err(|why| format!("Capstone's {why}"))?;
    let (code, starts) = x86_64(bytes);
    let runs: Vec<_> = parts(&code, &starts, ARGUMENT)
        .map(|part| (vec!["x64".to_string(), hex(part)], Vec::new()))
        .collect();
    Ok(Program {
        name: "Capstone (cstool)",
        writes: format!(
            "lines, {} processes, of as much x86-64 code, {} instructions: {version}",
            runs.len(),
            starts.len(),
        ),
        path: CSTOOL.into(),
        runs,
        _file: None,
    })
}

/// The first line of what a program says of itself, if there is one.
fn version(program: &str, option: &str) -> Result<String, String> {
    match Command::new(program).arg(option).output() {
        Ok(said) => {
            let said = String::from_utf8_lossy(&said.stdout);
            Ok(said.lines().next().unwrap_or_default().to_string())
        }
        Err(error) if error.kind() == ErrorKind::NotFound => {
            Err(format!("{program}: not installed, not timed"))
        }
        Err(error) => Err(format!("{program}: not timed, {error}")),
    }
}

/// The code in parts of whole instructions, with up to so many bytes each.
fn parts<'a>(code: &'a [u8], starts: &'a [usize], most: usize) -> impl Iterator<Item = &'a [u8]> {
    let mut begin = 0;
    std::iter::from_fn(move || {
        let end = match code.len() - begin <= most {
            true => code.len(),
            false => starts[starts.partition_point(|&start| start <= begin + most) - 1],
        };
        let part = &code[begin..end];
        begin = end;
        (!part.is_empty()).then_some(part)
    })
}

/// About so many bytes of x86-64 instructions, and where they start.
fn x86_64(bytes: usize) -> (Vec<u8>, Vec<usize>) {
    let rng = &mut Rng::new(1);
    let (mut code, mut starts) = (Vec::new(), Vec::new());
    while code.len() < bytes {
        let (form, number) = rng.pick(&X86_64);
        starts.push(code.len());
        code.extend(form.iter().map(|[value, any]| value | rng.byte() & any));
        code.extend((0..number).map(|_| rng.byte()));
    }
    (code, starts)
}

fn hex(bytes: &[u8]) -> String {
    bytes.iter().fold(String::new(), |mut digits, byte| {
        write!(digits, "{byte:02x}").expect("strings take all");
        digits
    })
}

/// A file that is removed in the end.
struct Temporary(PathBuf);

impl Temporary {
    fn new(content: &[u8]) -> Result<Temporary, String> {
        let name = format!("dookerand-bench-{}.bin", std::process::id());
        let path = std::env::temp_dir().join(name);
        match std::fs::write(&path, content) {
            Ok(()) => Ok(Temporary(path)),
            Err(error) => Err(format!("{}: {error}", path.display())),
        }
    }
}

impl Drop for Temporary {
    fn drop(&mut self) {
        // Whether it could be removed changes nothing.
        let _ = std::fs::remove_file(&self.0);
    }
}
