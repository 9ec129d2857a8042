//! `makevectors DIR` writes the stored event files and their printouts.
#![forbid(unsafe_code)]

use model::vectors;
use std::path::Path;
use std::process::ExitCode;

fn main() -> ExitCode {
    let words: Vec<String> = std::env::args().skip(1).collect();
    let [place] = words.as_slice() else {
        eprintln!("usage: makevectors DIR");
        return ExitCode::FAILURE;
    };
    match write(Path::new(place)) {
        Ok(()) => ExitCode::SUCCESS,
        Err(error) => {
            eprintln!("makevectors: {error}");
            ExitCode::FAILURE
        }
    }
}

fn write(place: &Path) -> std::io::Result<()> {
    std::fs::create_dir_all(place)?;
    for (name, bytes) in vectors::all() {
        std::fs::write(place.join(format!("{name}.bin")), &bytes)?;
        let lines = model::panel::print(&bytes);
        std::fs::write(place.join(format!("{name}.txt")), lines)?;
    }
    Ok(())
}
