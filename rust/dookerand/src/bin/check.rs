//! Checks the description in a file.

use std::process::ExitCode;

fn main() -> ExitCode {
    let Some(path) = std::env::args_os().nth(1) else {
        eprintln!("usage: dookerand-check FILE");
        return ExitCode::from(2);
    };
    let description = match std::fs::read(&path) {
        Ok(description) => description,
        Err(error) => {
            eprintln!("{}: {error}", path.display());
            return ExitCode::from(2);
        }
    };
    let answer = dookerand::check(&description);
    if answer.number == 0 {
        println!("well formed, {} bytes", description.len());
        return ExitCode::SUCCESS;
    }
    let [section, record, ..] = answer.values;
    println!("malformed {section} {record}");
    ExitCode::FAILURE
}
