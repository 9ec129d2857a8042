//! `side ROUNDS INPUT PROGRAM PROGRAM` runs the two programs in turn, from the
//! file and to a file, and prints the whole-run times side by side. It fails
//! where the two write different bytes.
#![forbid(unsafe_code)]

use std::fs::File;
use std::io;
use std::path::{Path, PathBuf};
use std::process::{Command, ExitCode};
use std::time::{Duration, Instant};

fn run(program: &str, input: &Path, output: &Path) -> io::Result<Duration> {
    let (from, to) = (File::open(input)?, File::create(output)?);
    let began = Instant::now();
    let ended = Command::new(program).stdin(from).stdout(to).status()?;
    let took = began.elapsed();
    match ended.success() {
        true => Ok(took),
        false => Err(io::Error::other(format!("{program}: {ended}"))),
    }
}

fn milliseconds(time: Duration) -> f64 {
    time.as_secs_f64() * 1000.0
}

fn measure(rounds: usize, input: &Path, programs: [&str; 2]) -> io::Result<()> {
    let output = |i: usize| -> PathBuf { input.with_extension(format!("out{i}")) };
    let mut times = [Vec::new(), Vec::new()];
    // The first round warms up and compares what is written.
    for (i, program) in programs.iter().enumerate() {
        run(program, input, &output(i))?;
    }
    if std::fs::read(output(0))? != std::fs::read(output(1))? {
        return Err(io::Error::other("the two programs write different bytes"));
    }
    for _ in 0..rounds {
        for (i, program) in programs.iter().enumerate() {
            times[i].push(run(program, input, &output(i))?);
        }
    }
    for (i, taken) in times.iter_mut().enumerate() {
        taken.sort();
        std::fs::remove_file(output(i))?;
    }
    let figures = times.map(|sorted| [sorted[0], sorted[sorted.len() / 2]].map(milliseconds));
    let [one, other] = figures;
    println!(
        "{:<8} best {:>7.1} / {:>7.1} ms = {:.2}   median {:>7.1} / {:>7.1} ms = {:.2}",
        input.file_stem().unwrap_or_default().to_string_lossy(),
        one[0],
        other[0],
        one[0] / other[0],
        one[1],
        other[1],
        one[1] / other[1]
    );
    Ok(())
}

fn main() -> ExitCode {
    let words: Vec<String> = std::env::args().skip(1).collect();
    let result = match words.as_slice() {
        [rounds, input, one, other] => rounds
            .parse::<usize>()
            .map_err(io::Error::other)
            .and_then(|rounds| measure(rounds.max(1), Path::new(input), [one, other])),
        _ => Err(io::Error::other("usage: side ROUNDS INPUT PROGRAM PROGRAM")),
    };
    match result {
        Ok(()) => ExitCode::SUCCESS,
        Err(error) => {
            eprintln!("side: {error}");
            ExitCode::FAILURE
        }
    }
}
