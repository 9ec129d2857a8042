//! `events encode < text > records`, `events decode < records > text`.
#![forbid(unsafe_code)]

use std::io::{self, Read, Write};
use std::process::ExitCode;

fn main() -> ExitCode {
    match run() {
        Ok(()) => ExitCode::SUCCESS,
        Err(message) => {
            eprintln!("events: {message}");
            ExitCode::FAILURE
        }
    }
}

fn run() -> Result<(), String> {
    let words: Vec<String> = std::env::args().skip(1).collect();
    let mut input = Vec::new();
    let work: fn(Vec<u8>) -> Result<Vec<u8>, String> = match words.as_slice() {
        [word] if word == "encode" => encode,
        [word] if word == "decode" => |bytes| Ok(model::text::decode(&bytes).into_bytes()),
        _ => return Err("usage: events encode|decode < input > output".to_string()),
    };
    let said = |error: io::Error| error.to_string();
    io::stdin().read_to_end(&mut input).map_err(said)?;
    io::stdout().write_all(&work(input)?).map_err(said)
}

fn encode(input: Vec<u8>) -> Result<Vec<u8>, String> {
    let text = String::from_utf8(input).map_err(|error| error.to_string())?;
    model::text::encode(&text)
}
