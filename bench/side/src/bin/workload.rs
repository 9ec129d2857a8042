//! `workload PROFILE SEED COUNT` writes that many event records of a profile.
#![forbid(unsafe_code)]

use model::profile::{self, Walk};
use std::io::{self, BufWriter, Write};

fn main() -> io::Result<()> {
    let words: Vec<String> = std::env::args().skip(1).collect();
    let [name, seed, count] = words.as_slice() else {
        return Err(io::Error::other("usage: workload PROFILE SEED COUNT"));
    };
    let profile = profile::ALL
        .into_iter()
        .find(|profile| profile.name() == name)
        .ok_or_else(|| io::Error::other(format!("no profile {name}")))?;
    let number = |word: &String| word.parse::<u64>().map_err(io::Error::other);
    let mut walk = Walk::new(profile, number(seed)?);
    let mut out = BufWriter::new(io::stdout().lock());
    for _ in 0..number(count)? {
        out.write_all(&walk.advance().0.encode())?;
    }
    out.flush()
}
