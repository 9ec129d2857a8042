//! What an archive shows to a linker.

use crate::engine::host;
use std::fs;

/// The folders of `target/` that `host/lib` leaves an archive in.
pub const ARCHIVES: [&str; 2] = ["native", "staticlib"];

/// The objects of an archive by name, and the names that it exports, in order.
pub fn exports(archive: &str) -> (Vec<String>, Vec<String>) {
    let path = host("../target").join(archive).join("libwhipsail.a");
    let bytes = fs::read(path).expect("host/lib leaves it");
    let members = members(&bytes);
    let special = |wanted: &str| members.iter().find(|(name, _)| name == wanted);
    let exported = index(special("/").expect("an index").1);
    let long = special("//").map_or(String::new(), |(_, text)| {
        String::from_utf8_lossy(text).into_owned()
    });
    // A long name stands elsewhere, and its place here: `/0`.
    let named = |(name, _): &(String, &[u8])| match name.strip_prefix('/').map(str::parse::<usize>)
    {
        Some(Ok(place)) => long[place..].lines().next().map(str::to_string),
        Some(Err(_)) => None,
        None => Some(name.clone()),
    };
    (members.iter().filter_map(named).collect(), exported)
}

/// The members of an archive with their names.
fn members(bytes: &[u8]) -> Vec<(String, &[u8])> {
    let mut rest = bytes.strip_prefix(b"!<arch>\n").expect("an archive");
    let mut members = Vec::new();
    while let Some((head, after)) = rest.split_first_chunk::<60>() {
        let text = |range| String::from_utf8_lossy(&head[range]).trim().to_string();
        let size: usize = text(48..58).parse().expect("a size");
        members.push((text(0..16), &after[..size]));
        rest = &after[size.next_multiple_of(2).min(after.len())..];
    }
    members
}

/// The names in the index of an archive: a count and as many places of four
/// bytes, then the names, each with a 0 behind it.
fn index(bytes: &[u8]) -> Vec<String> {
    let (count, rest) = bytes.split_first_chunk().expect("a count");
    let count = u32::from_be_bytes(*count) as usize;
    let mut names: Vec<String> = rest[4 * count..]
        .split(|&byte| byte == 0)
        .take(count)
        .map(|name| String::from_utf8_lossy(name).into_owned())
        .collect();
    names.sort();
    names
}
