//! Reads a plan from standard input and prints who rings.
#![forbid(unsafe_code)]

use model::plan;
use std::io::{self, Read, Write};
use std::process::ExitCode;

fn main() -> io::Result<ExitCode> {
    let mut input = Vec::new();
    io::stdin().read_to_end(&mut input)?;
    match plan::text(&input) {
        Ok((panels, start)) => {
            let lines = plan::lines(&plan::rehearse(&panels, start));
            io::stdout().write_all(lines.as_bytes())?;
            Ok(ExitCode::SUCCESS)
        }
        Err(line) => {
            eprintln!("rehearse: line {line} is no part of a plan");
            Ok(ExitCode::FAILURE)
        }
    }
}
