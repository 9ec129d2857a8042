//! The archives hold the functions that the headers declare, each once, and
//! show nothing else to a linker. One of them has the layout's number in its name.
#![forbid(unsafe_code)]

use compare::exports::{exports, ARCHIVES};
use compare::headers;

/// The functions that a header declares: lines from the first column on that end
/// there.
fn declared(text: &str) -> Vec<String> {
    let starts = |line: &&str| line.starts_with(|c: char| c.is_ascii_lowercase());
    let ends = |line: &&str| line.ends_with(");");
    let lines = text.lines().filter(starts).filter(ends);
    lines
        .filter_map(|line| {
            let (words, _) = line.split_once('(')?;
            let (_, name) = words.split_once(' ')?;
            Some(match name {
                "WHIPSAIL_LINKED" => {
                    let number = headers::number("WHIPSAIL_LAYOUT_NUMBER");
                    format!("whipsail_layout_{number}")
                }
                _ => name.to_string(),
            })
        })
        .collect()
}

#[test]
fn the_archives_export_what_the_headers_declare() {
    let texts = headers::all();
    let mut names: Vec<String> = texts.iter().flat_map(|(_, text)| declared(text)).collect();
    names.sort();
    assert_eq!(names.len(), 8, "{names:?}");
    for archive in ARCHIVES {
        let (objects, exported) = exports(archive);
        let crates = ["whipsail.o/", "whipsail_runs.o/", "whipsail_aids.o/", "whipsail_layout.o/"];
        assert_eq!(objects, crates, "{archive}");
        assert_eq!(exported, names, "{archive}");
    }
}
