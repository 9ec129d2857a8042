//! The layout's number moves with the layout, and the format's with that of what a
//! host keeps: `layouts/` has each number's structs, fields, offsets and sizes, as
//! `host/c/layout.c` prints them. What bytes mean is not seen here.
#![forbid(unsafe_code)]

use compare::engine::host;
use compare::{headers, Archive};
use std::fs;

/// What a host keeps over a restart.
const KEPT: [&str; 9] = [
    "dli1", "history", "waits", "call", "pending", "pendings", "kept", "remote", "station",
];

/// The lines of some structs: one for the struct, and below it one for each field.
fn of_structs(layout: &str, wanted: &[&str]) -> String {
    let mut wants = false;
    let mut lines = String::new();
    for line in layout.lines() {
        if let Some((name, _)) = line.split_once(' ').filter(|(name, _)| !name.is_empty()) {
            wants = wanted.contains(&name);
        }
        if wants {
            lines += line;
            lines.push('\n');
        }
    }
    lines
}

fn stored(what: &str, name: &str) -> String {
    let number = headers::number(name);
    let path = host(&format!("compare/layouts/{what}_{number}.txt"));
    fs::read_to_string(&path).unwrap_or_else(|_| panic!("no {}", path.display()))
}

#[test]
fn the_numbers_move_with_the_layout() {
    for &archive in Archive::all() {
        let ran = archive.program("layout").output().expect("it starts");
        let layout = String::from_utf8(ran.stdout).expect("text");
        let known = stored("layout", "WHIPSAIL_LAYOUT_NUMBER");
        assert_eq!(
            layout, known,
            "another layout needs another number (host/README.md)"
        );
        let kept = of_structs(&layout, &KEPT);
        assert_eq!(
            kept.lines().filter(|line| !line.starts_with(' ')).count(),
            KEPT.len()
        );
        let known = stored("format", "WHIPSAIL_FORMAT");
        assert_eq!(
            kept, known,
            "another format needs another number (host/README.md)"
        );
    }
}
