//! The panel printout in plain Rust, written for speed: one table in place,
//! plain scans, input and output in large pieces.
#![forbid(unsafe_code)]

use plain::answer::Answer;
use plain::call::Call;
use plain::event::{Event, Words, SIZE};
use plain::station::Station;
use plain::{line, sound};
use std::fs::File;
use std::io::{self, Read, Write};
use std::os::fd::AsFd;

/// Bytes read at once, in whole records, and written at once.
const PIECE: usize = SIZE * 4096;

fn main() -> io::Result<()> {
    let mut input = File::from(io::stdin().as_fd().try_clone_to_owned()?);
    let mut output = File::from(io::stdout().as_fd().try_clone_to_owned()?);
    let mut read = vec![0; PIECE];
    let mut written = vec![0; PIECE + line::LONGEST];
    let mut station = Station::fresh();
    let mut table = [Call::default(); 64];
    let sound = sound::sound(&table, &station);
    let (mut held, mut out, mut position) = (0, 0, 0);
    loop {
        let count = input.read(&mut read[held..])?;
        held += count;
        let (records, _) = read[..held].as_chunks::<SIZE>();
        for record in records {
            let answer = match sound {
                true => station.step(&mut table, &Event::decode(record), Words::of(record)),
                false => Answer::refused(1),
            };
            out += line::write(&mut written[out..], position, &answer);
            position += 1;
            if out >= PIECE {
                output.write_all(&written[..out])?;
                out = 0;
            }
        }
        let done = records.len() * SIZE;
        read.copy_within(done..held, 0);
        held -= done;
        if count == 0 {
            break;
        }
    }
    output.write_all(&written[..out])?;
    if held > 0 {
        writeln!(output, "cut {held}")?;
    }
    Ok(())
}
