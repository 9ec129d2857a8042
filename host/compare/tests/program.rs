//! The program `rehearse` against the model: texts of plans, and texts that are
//! none. `rt run` in its crate's folder builds it.
#![forbid(unsafe_code)]

use compare::check::first_seed;
use compare::program::{on_file, on_packets, Said};
use model::plan::{lines, rehearse, text, write};
use model::plans;
use model::random::Random;

const TEXTS: u64 = 600;

/// What the program writes of this text.
fn said(input: &[u8]) -> Said {
    on_file("rehearse", input)
}

/// What the model says of the text.
fn expected(input: &[u8]) -> Said {
    match text(input) {
        Ok((panels, start)) => (lines(&rehearse(&panels, start)), String::new()),
        Err(line) => (
            String::new(),
            format!("rehearse: line {line} is no part of a plan\n"),
        ),
    }
}

/// A byte left out, put in or changed, or the text's end cut off.
fn damaged(mut input: Vec<u8>, random: &mut Random) -> Vec<u8> {
    let at = random.below(input.len() as u64) as usize;
    let byte = random.pick(b"0123456789 \n\r\tx-");
    match random.below(4) {
        0 => drop(input.remove(at)),
        1 => input.insert(at, byte),
        2 => input[at] = byte,
        _ => input.truncate(at),
    }
    input
}

#[test]
fn texts_of_plans_and_others() {
    let mut random = Random::new(first_seed());
    let (mut plans, mut refused, mut faults) = (0, 0, 0);
    for _ in 0..TEXTS {
        let (panels, start) = plans::any(&mut random);
        let mut input = write(&panels, start).into_bytes();
        if random.chance(50) {
            input = damaged(input, &mut random);
        }
        let expected = expected(&input);
        assert_eq!(said(&input), expected, "{}", input.escape_ascii());
        match expected.0.bytes().next() {
            Some(b'0') => plans += 1,
            Some(_) => refused += 1,
            None => faults += 1,
        }
    }
    println!("{plans} plans, {refused} refused, {faults} no plan");
    assert!(plans > 50 && refused > 50 && faults > 50);
}

#[test]
fn texts_at_the_edges() {
    let texts: [&[u8]; 12] = [
        b"",
        b"\n",
        b"1",
        b"1\n",
        b"1\n\n",
        b"1\n0 0 0 0 0",
        b"1\n0 0 0 0 0\n\n",
        b"00001\n0 0 0 000000 0\n",
        b"1\n0 0 0 65535 0\n",
        b"1\n0 0 0 65536 0\n",
        b"1\r\n0 0 0 0 0\r\n",
        b"1\n0 0 0 0\n",
    ];
    for input in texts {
        assert_eq!(said(input), expected(input), "{}", input.escape_ascii());
    }
}

/// A text is read in pieces, wherever it is cut.
#[test]
fn texts_by_short_reads() {
    let mut random = Random::new(first_seed());
    for length in [1, 2, 3, 7, 1000] {
        let (panels, start) = plans::any(&mut random);
        let input = write(&panels, start).into_bytes();
        let pieces: Vec<&[u8]> = input.chunks(length).collect();
        let read = on_packets("rehearse", &pieces);
        assert_eq!(read, expected(&input), "reads of {length}");
    }
}
