//! `second list`, `second cases`, `second answers`, `second steps`.

use std::io::{self, Read, Write};
use std::process::ExitCode;

const USAGE: &str = "usage: second list|cases|answers|steps
  list     reads a card's raw bytes, writes its listing
  cases    writes the case script
  answers  reads a case script, writes what each line answers
  steps    writes tables of what step sizes save
";

fn main() -> ExitCode {
    let arguments: Vec<String> = std::env::args().skip(1).collect();
    let outcome = match arguments.iter().map(String::as_str).collect::<Vec<_>>()[..] {
        ["list"] => list(),
        ["cases"] => write_text(&second::cases()),
        ["answers"] => answers(),
        ["steps"] => write_text(&second::step_tables()),
        _ => {
            eprint!("{USAGE}");
            return ExitCode::from(2);
        }
    };
    match outcome {
        Ok(()) => ExitCode::SUCCESS,
        Err(error) => {
            eprintln!("second: {error}");
            ExitCode::FAILURE
        }
    }
}

fn list() -> io::Result<()> {
    let mut card = Vec::new();
    io::stdin().read_to_end(&mut card)?;
    write_text(&second::listing(&card))
}

fn answers() -> io::Result<()> {
    let mut script = String::new();
    io::stdin().read_to_string(&mut script)?;
    write_text(&second::answers(&script))
}

fn write_text(text: &str) -> io::Result<()> {
    let mut out = io::stdout().lock();
    out.write_all(text.as_bytes())?;
    out.flush()
}
