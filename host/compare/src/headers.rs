//! What the C headers say.

use crate::engine::host;
use std::fs;

/// Each header of `host/include`: its name and its text.
pub fn all() -> Vec<(String, String)> {
    let folder = fs::read_dir(host("include")).expect("the headers");
    let mut headers: Vec<(String, String)> = folder
        .map(|entry| entry.expect("a header").path())
        .filter(|path| path.extension().is_some_and(|end| end == "h"))
        .map(|path| {
            let name = path.file_name().unwrap_or_default().to_string_lossy();
            let text = fs::read_to_string(&path).expect("text");
            (name.into_owned(), text)
        })
        .collect();
    headers.sort();
    headers
}

/// The text of one header.
pub fn text(name: &str) -> String {
    let found = all().into_iter().find(|(found, _)| found == name);
    found.unwrap_or_else(|| panic!("no {name}")).1
}

/// A name that a header gives to something: a number where it is written as one.
pub type Named = (String, Result<u64, String>);

/// The names of a header's text: `#define NAME something`, and `NAME = something`
/// in an enum. Guards name nothing.
pub fn names(text: &str) -> Vec<Named> {
    let plain = without_comments(text);
    let defines = plain.lines().filter_map(|line| {
        let line = line.strip_prefix("#define ")?;
        let (name, value) = line.split_at(line.find([' ', '('])?);
        (!value.trim().is_empty()).then_some((name, value))
    });
    let enums = plain.split("enum {").skip(1).flat_map(|part| {
        let (body, _) = part.split_once('}').expect("an enum's end");
        body.split(',')
            .map(|one| one.split_once('=').unwrap_or((one, "")))
    });
    defines.chain(enums).map(named).collect()
}

fn named((name, value): (&str, &str)) -> Named {
    let value = value.trim();
    let number = value.parse().map_err(|_| value.to_string());
    (name.trim().to_string(), number)
}

fn without_comments(text: &str) -> String {
    let mut parts = text.split("/*");
    let first = parts.next().unwrap_or_default().to_string();
    parts.fold(first, |before, part| {
        let (_, after) = part.split_once("*/").expect("a comment's end");
        before + after
    })
}

/// The number that the headers give to a name.
pub fn number(name: &str) -> u64 {
    let named = all().into_iter().flat_map(|(_, text)| names(&text));
    let found = named.filter(|(found, _)| found == name).last();
    let (_, number) = found.unwrap_or_else(|| panic!("no {name}"));
    number.unwrap_or_else(|words| panic!("{name} is {words}"))
}

/// The rows of a table in a comment, below the line that begins with these words:
/// columns stand two spaces apart.
pub fn rows(text: &str, head: &str) -> Vec<Vec<String>> {
    let line = |line: &str| line.strip_prefix(" *").map(|rest| rest.trim().to_string());
    let lines = text.lines().map(line);
    let below = lines.skip_while(|line| !line.as_ref().is_some_and(|line| line.starts_with(head)));
    let rows = below.skip(1).skip_while(|line| line.as_deref() == Some(""));
    rows.map_while(|line| line.filter(|line| !line.is_empty()))
        .map(|line| {
            let columns = line.split("  ").map(str::trim);
            columns
                .filter(|column| !column.is_empty())
                .map(str::to_string)
                .collect()
        })
        .collect()
}
