//! The program `panelrun` against the model: the stored files, files of several
//! of the pieces that it reads, cut files, pipes and short reads. `rt run` in
//! its crate's folder builds it.
#![forbid(unsafe_code)]

use compare::check::first_seed;
use compare::engine::host;
use compare::program::{on_file, on_packets, on_pipe, Said};
use model::panel;
use model::profile::{self, Profile};
use std::io::Write;
use std::time::Duration;

/// What the program reads at once, at most.
const PIECE: usize = 65536;
const RECORD: usize = 24;

/// The first bytes of a list of events.
fn records(profile: Profile, length: usize) -> Vec<u8> {
    let events = profile::events(profile, first_seed(), length.div_ceil(RECORD));
    let mut bytes = panel::bytes(&events);
    bytes.truncate(length);
    bytes
}

/// Holds what was said of the input to the model's lines.
fn same((lines, errors): Said, input: &[u8], how: &str) {
    let expected = panel::print(input);
    let mut pairs = lines.lines().zip(expected.lines());
    if let Some((ours, models)) = pairs.find(|(ours, models)| ours != models) {
        panic!("{how}: the line {ours:?} is {models:?} by the model");
    }
    assert_eq!(lines.len(), expected.len(), "{how}: bytes printed");
    assert_eq!(errors, "", "{how}");
}

/// The input in pieces of these lengths, as often as it takes.
fn cut<'a>(input: &'a [u8], lengths: &[usize]) -> Vec<&'a [u8]> {
    let mut rest = input;
    let mut pieces = Vec::new();
    for length in lengths.iter().cycle() {
        if rest.is_empty() {
            break;
        }
        let (piece, after) = rest.split_at(rest.len().min(*length));
        pieces.push(piece);
        rest = after;
    }
    pieces
}

#[test]
fn stored_files() {
    let mut files = 0;
    for entry in std::fs::read_dir(host("vectors")).expect("a folder") {
        let path = entry.expect("a file").path();
        if path.extension().is_some_and(|extension| extension == "bin") {
            let input = std::fs::read(&path).expect("records");
            let lines = std::fs::read_to_string(path.with_extension("txt")).expect("lines");
            let said = on_file("panelrun", &input);
            assert!(said.0 == lines, "{}", path.display());
            same(said, &input, &path.display().to_string());
            files += 1;
        }
    }
    assert_eq!(files, model::vectors::all().len());
}

#[test]
fn files_of_several_pieces() {
    for profile in profile::ALL {
        let input = records(profile, 3 * PIECE + 1000);
        same(on_file("panelrun", &input), &input, profile.name());
    }
}

#[test]
fn files_cut_anywhere_in_a_record() {
    let input = records(Profile::Mixed, 3 * PIECE);
    let whole = PIECE / RECORD; // records in a first piece; 16 bytes are left over
    let all: Vec<usize> = (0..RECORD).collect();
    let some = [0, 1, 15, 16, 17, 23];
    for (count, rests) in [(0, &all[..]), (1, &some), (whole, &all), (whole + 1, &some)] {
        for rest in rests {
            let input = &input[..count * RECORD + rest];
            let how = format!("{} bytes", input.len());
            same(on_file("panelrun", input), input, &how);
        }
    }
}

/// Reads so short that each count of bytes is carried over, and reads that
/// complete no record.
const SHORT: [&[usize]; 4] = [&[1], &[25], &[23], &[5, 40_000, 11, 1, 65_000, 24, 7]];

#[test]
fn short_reads() {
    let input = records(Profile::Deep, 3 * PIECE + 7);
    for (lengths, length) in SHORT.into_iter().zip([500, 2000, 2000, input.len()]) {
        let input = &input[..length];
        let said = on_packets("panelrun", &cut(input, lengths));
        same(said, input, &format!("reads of {lengths:?}"));
    }
}

#[test]
fn a_pipe_with_short_writes() {
    let input = records(Profile::Mixed, 2 * PIECE + 13);
    let pieces = cut(&input, &[1, 23, 24, 25, 7, 50, 3, 2000, 9, 6000]);
    let said = on_pipe("panelrun", |mut pipe| {
        for piece in &pieces {
            if pipe.write_all(piece).is_err() {
                return; // the program has ended: the lines will tell
            }
            std::thread::sleep(Duration::from_millis(2));
        }
    });
    same(said, &input, "a pipe");
}

/// The bytes that are played where a loop over pieces carries with this fault.
fn carried(pieces: &[&[u8]], carry: fn(&[u8], usize) -> Vec<u8>) -> Vec<u8> {
    let mut played = Vec::new();
    let mut buffer = Vec::new();
    for piece in pieces {
        buffer.extend_from_slice(piece);
        let used = buffer.len() / RECORD * RECORD;
        played.extend_from_slice(&buffer[..used]);
        buffer = carry(&buffer, used);
    }
    played.extend(buffer);
    played
}

/// The inputs above tell a wrong `carry`: the lines would be others.
#[test]
fn a_wrong_carry_is_seen() {
    let input = records(Profile::Mixed, 3 * PIECE + 1000);
    let file = cut(&input, &[PIECE, PIECE - 16, PIECE - 16]);
    let short = cut(&input[..2000], &[25]);
    let lines = |pieces: &[&[u8]], carry| panel::print(&carried(pieces, carry));
    let faults: [fn(&[u8], usize) -> Vec<u8>; 4] = [
        |_, _| Vec::new(),
        |buffer, used| buffer[..buffer.len() - used].to_vec(),
        |buffer, used| vec![*buffer.get(used).unwrap_or(&0); buffer.len() - used],
        |buffer, used| buffer[(used + 1).min(buffer.len())..].to_vec(),
    ];
    for pieces in [file, short] {
        let right = lines(&pieces, |buffer, used| buffer[used..].to_vec());
        assert!(right == panel::print(&pieces.concat()));
        for (at, fault) in faults.into_iter().enumerate() {
            assert!(lines(&pieces, fault) != right, "fault {at}");
        }
    }
}
