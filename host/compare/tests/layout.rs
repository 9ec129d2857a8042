//! What `whipsail.h` says of its structs is what the library was built with.
//! Three sources are held to each other: the header, as a C program prints it
//! (`host/c/layout.c`); the structs of the crates, laid out by C's rules; and the
//! compiled modules (`target/native/CRATE.ll`), which have no field names but
//! the offset and width of each store, and the sizes that functions take and
//! hand back. That each field means what its name says is for the other tests.
#![forbid(unsafe_code)]

use compare::engine::host;
use compare::Archive;
use std::collections::{BTreeMap, BTreeSet};
use std::fs;

/// A field's name, offset and size.
type Field = (String, usize, usize);

/// A struct's size, and its fields in order.
type Layout = (usize, Vec<Field>);

/// Offsets and widths.
type Places = BTreeSet<(usize, usize)>;

/// The structs of the header, in lower case.
fn header(archive: Archive) -> BTreeMap<String, Layout> {
    let ran = archive.program("layout").output().expect("it starts");
    let said = String::from_utf8(ran.stdout).expect("text");
    let mut structs: BTreeMap<String, Layout> = BTreeMap::new();
    let mut current = String::new();
    for line in said.lines() {
        let words: Vec<&str> = line.split_whitespace().collect();
        let number = |at: usize| words[at].parse().expect("a number");
        if line.starts_with(' ') {
            let fields = &mut structs.get_mut(&current).expect("a struct first").1;
            fields.push((words[0].to_string(), number(1), number(2)));
        } else {
            current = words[0].to_string();
            structs.insert(current.clone(), (number(1), Vec::new()));
        }
    }
    assert_eq!(structs.len(), 19, "{structs:?}");
    structs
}

/// The fields and types of each `#[repr(C)]` struct of the crates.
fn declared() -> BTreeMap<String, Vec<(String, String)>> {
    let mut structs = BTreeMap::new();
    for folder in fs::read_dir(host("../crates")).expect("crates") {
        let source = folder.expect("a crate").path().join("src/lib.rt");
        let text = fs::read_to_string(&source).unwrap_or_default();
        for part in text.split("#[repr(C)]\n").skip(1) {
            let (_, part) = part.split_once("pub struct ").expect("a struct");
            let (name, rest) = part.split_once(" {\n").expect("a struct's name");
            let (body, _) = rest.split_once("\n}").expect("a struct's end");
            let field = |line: &str| {
                let line = line.trim().trim_end_matches(',');
                let (name, kind) = line.strip_prefix("pub ")?.split_once(": ")?;
                Some((name.to_string(), kind.to_string()))
            };
            let fields = body.lines().filter_map(field).collect();
            let other = structs.insert(name.to_string(), fields);
            assert!(other.is_none(), "two structs {name}");
        }
    }
    structs
}

/// Size and alignment of a type, by C's rules.
fn room(kind: &str, structs: &BTreeMap<String, Vec<(String, String)>>) -> (usize, usize) {
    let array = kind
        .strip_prefix('[')
        .and_then(|kind| kind.strip_suffix(']'));
    if let Some((element, count)) = array.and_then(|array| array.split_once("; ")) {
        let (size, aligned) = room(element, structs);
        return (size * count.parse::<usize>().expect("a length"), aligned);
    }
    match kind {
        "u8" => (1, 1),
        "u16" => (2, 2),
        "u32" => (4, 4),
        "u64" | "usize" => (8, 8),
        _ => {
            let fields = structs
                .get(kind)
                .unwrap_or_else(|| panic!("no struct {kind}"));
            let aligned = fields.iter().map(|(_, kind)| room(kind, structs).1).max();
            (laid(fields, structs).0, aligned.unwrap_or(1))
        }
    }
}

fn laid(fields: &[(String, String)], structs: &BTreeMap<String, Vec<(String, String)>>) -> Layout {
    let (mut end, mut widest, mut places) = (0_usize, 1, Vec::new());
    for (name, kind) in fields {
        let (size, aligned) = room(kind, structs);
        let at = end.next_multiple_of(aligned);
        places.push((name.clone(), at, size));
        (end, widest) = (at + size, widest.max(aligned));
    }
    (end.next_multiple_of(widest), places)
}

/// A crate's name of a struct that has another in the header, where hosts use it.
fn in_crates(name: &str) -> &str {
    match name {
        "told" => "reply",
        _ => name,
    }
}

#[test]
fn the_header_has_the_structs_of_the_crates() {
    let structs = declared();
    for &archive in Archive::all() {
        for (name, layout) in header(archive) {
            let fields = structs
                .iter()
                .find(|(declared, _)| declared.to_lowercase() == in_crates(&name))
                .unwrap_or_else(|| panic!("no crate has the struct {name}"))
                .1;
            assert_eq!(layout, laid(fields, &structs), "{name}");
        }
    }
}

/// The crates of which the archive has a module each.
const MODULES: [&str; 3] = ["whipsail", "whipsail_runs", "whipsail_aids"];

/// The name and the text of each function of a crate's module.
fn module(name: &str) -> BTreeMap<String, String> {
    let path = host(&format!("../target/native/{name}.ll"));
    let text = fs::read_to_string(path).expect("host/lib leaves the module");
    let mut functions = BTreeMap::new();
    for part in text.split("\ndefine ").skip(1) {
        let (body, _) = part.split_once("\n}").expect("a function's end");
        let (_, named) = part.split_once('@').expect("a function's name");
        let (name, _) = named.split_once('(').expect("its arguments");
        functions.insert(name.trim_matches('"').to_string(), body.to_string());
    }
    functions
}

/// The number behind a mark in a line.
fn number_after(line: &str, mark: &str) -> Option<usize> {
    let (_, rest) = line.split_once(mark)?;
    let digits = rest
        .find(|c: char| !c.is_ascii_digit())
        .unwrap_or(rest.len());
    rest[..digits].parse().ok()
}

/// The register behind a mark, as `%r4`.
fn register<'a>(line: &'a str, mark: &str) -> Option<&'a str> {
    let (_, rest) = line.split_once(mark)?;
    let end = rest.find([',', ')']).unwrap_or(rest.len());
    rest[..end].starts_with('%').then_some(&rest[..end])
}

/// For each piece of memory of a function, by its size, the places that are
/// stored to, loaded, or copied from and to, as offset and width.
fn touched(body: &str) -> Vec<(usize, Places)> {
    let mut pieces: BTreeMap<&str, (usize, Places)> = BTreeMap::new();
    let mut within: BTreeMap<&str, (&str, usize)> = BTreeMap::new();
    for line in body.lines().map(str::trim) {
        let target = line.split(" = ").next().unwrap_or_default();
        if let Some(size) = number_after(line, " = alloca [") {
            pieces.insert(target, (size, Places::new()));
            within.insert(target, (target, 0));
        } else if let Some(base) = register(line, " = getelementptr i8, ptr ") {
            if let Some(&(piece, at)) = within.get(base) {
                let more = number_after(line, ", i64 ").unwrap_or_default();
                within.insert(target, (piece, at + more));
            }
        }
        let places: Vec<(Option<&str>, usize)> = if line.starts_with("store i") {
            let bits = number_after(line, "store i").unwrap_or_default();
            vec![(register(line, ", ptr "), bits / 8)]
        } else if let Some(bits) = number_after(line, " = load i") {
            vec![(register(line, ", ptr "), bits / 8)]
        } else if line.contains("@llvm.memmove") {
            let size = number_after(line, ", i64 ").unwrap_or_default();
            vec![
                (register(line, "(ptr "), size),
                (register(line, ", ptr "), size),
            ]
        } else {
            Vec::new()
        };
        for (place, size) in places {
            if let Some(&(piece, at)) = place.and_then(|place| within.get(place)) {
                let piece = pieces.get_mut(piece).expect("it was made");
                piece.1.insert((at, size));
            }
        }
    }
    pieces.into_values().collect()
}

/// A function that stores or copies each field of a struct by itself. Structs of
/// structs have none: of those some function touches every field, perhaps in
/// parts, and nothing across two fields.
const PLACES: [(&str, &str); 15] = [
    ("event", "event::EventDefault::default"),
    ("dli1", "notice::Dli1Default::default"),
    ("waits", "waits::WaitsDefault::default"),
    ("history", "notice::HistoryDefault::default"),
    ("call", "call::CallDefault::default"),
    ("pending", "timed::PendingDefault::default"),
    ("pendings", "remote::PendingsDefault::default"),
    ("kept", "remote::KeptDefault::default"),
    ("remote", "remote::RemoteDefault::default"),
    ("station", "fresh::fresh_station"),
    ("message", "call::MessageDefault::default"),
    ("answer", "fresh::empty_answer"),
    ("made", "fresh::fresh"),
    ("read", "whipsail_aids::whipsail_event_at"),
    ("rehearsed", "offers::end_at"),
];

/// Each field is touched, and nothing across two.
fn touches_each(places: &Places, fields: &Places) -> bool {
    let within = |&(at, size): &(usize, usize)| {
        let holds = |&(from, width): &(usize, usize)| from <= at && at + size <= from + width;
        fields.iter().any(holds)
    };
    let starts = |&(from, _): &(usize, usize)| places.iter().any(|&(at, _)| at == from);
    places.iter().all(within) && fields.iter().all(starts)
}

#[test]
fn the_modules_have_the_fields_of_the_header() {
    let functions: Vec<(String, String)> = MODULES.into_iter().flat_map(module).collect();
    for (name, (size, fields)) in header(Archive::Native) {
        let expected: Places = fields.iter().map(|&(_, at, size)| (at, size)).collect();
        let place = PLACES.iter().find(|(of, _)| *of == name);
        let has = |(found, mut places): (usize, Places)| {
            places.remove(&(0, size));
            let same = match place {
                Some(_) => places == expected,
                None => touches_each(&places, &expected),
            };
            found == size && same
        };
        let found = functions
            .iter()
            .filter(|(function, _)| place.is_none_or(|(_, place)| function == place))
            .any(|(_, body)| touched(body).into_iter().any(has));
        assert!(found, "{place:?}: no {name}, {size} bytes, {expected:?}");
    }
}

/// The functions that each module exports, with the structs that they take and
/// hand back by value.
const ENTRIES: [(&str, &str, &[&str], &str); 7] = [
    ("whipsail_aids", "whipsail_fresh", &[], "made"),
    ("whipsail_aids", "whipsail_fresh_short", &[], "station"),
    ("whipsail", "whipsail_lent_step", &["input"], "told"),
    ("whipsail_aids", "whipsail_event_at", &[], "read"),
    ("whipsail_aids", "whipsail_well_made", &["event"], ""),
    ("whipsail_aids", "whipsail_rehearse", &[], "rehearsed"),
    ("whipsail_runs", "whipsail_run", &["board"], "ran"),
];

#[test]
fn the_modules_take_and_hand_back_the_headers_sizes() {
    let header = header(Archive::Native);
    let size = |name: &str| header[name].0;
    for module_name in MODULES {
        let functions = module(module_name);
        let entries = ENTRIES.iter().filter(|entry| entry.0 == module_name);
        let exported = functions.keys().filter(|name| !name.contains("::"));
        assert_eq!(exported.count(), entries.clone().count());
        for (_, name, taken, back) in entries {
            let (signature, _) = functions[*name].split_once('\n').expect("a body");
            let sizes: Vec<usize> = signature
                .split("byval([")
                .skip(1)
                .map(|rest| number_after(&format!(" {rest}"), " ").expect("a size"))
                .collect();
            let expected: Vec<usize> = taken.iter().map(|name| size(name)).collect();
            assert_eq!(sizes, expected, "{name}");
            let mut results = functions[&format!("{module_name}::{name}")]
                .lines()
                .filter(|line| line.contains("memmove.p0.p0.i64(ptr %a0, "))
                .filter_map(|line| number_after(line, ", i64 "));
            if !back.is_empty() {
                assert!(results.all(|found| found == size(back)), "{name}");
            }
        }
    }
}
