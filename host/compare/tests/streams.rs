//! What the programs say where an input can't be read or an output can't be
//! written. They have no exit status: a script looks at standard error.
#![forbid(unsafe_code)]

use compare::engine::host;
use compare::program::{by_shell, file, program, said, scratch, Said};
use model::panel;
use model::profile::{self, Profile};
use std::fs::{self, File};
use std::io::Write;
use std::os::fd::OwnedFd;
use std::os::unix::net::UnixStream;
use std::process::{Command, Stdio};

const PLAN: &[u8] = b"1\n2 0 0 0 0\n0 0 0 0 0\n";

fn nine() -> Vec<u8> {
    fs::read(host("vectors/nine.bin")).expect("a stored file")
}

/// Each program with an input that it takes.
fn programs() -> [(&'static str, Vec<u8>); 2] {
    [("panelrun", nine()), ("rehearse", PLAN.to_vec())]
}

fn unread(name: &str, why: &str) -> Said {
    let error = format!("{name}: reading standard input: {why}\n");
    (String::new(), error)
}

fn unwritten(name: &str, why: &str) -> String {
    format!("{name}: writing standard output: {why}\n")
}

/// What the command says on standard error.
fn errors(command: &mut Command) -> String {
    let done = command.stderr(Stdio::piped()).output().expect("it runs");
    assert!(done.status.success(), "{}: not 0", done.status);
    String::from_utf8(done.stderr).expect("plain text")
}

#[test]
fn an_input_that_cannot_be_read() {
    for (name, _) in programs() {
        let folder = File::open(host("vectors")).expect("a folder");
        let read = said(program(name).stdin(folder));
        assert_eq!(read, unread(name, "Is a directory"));
        let read = said(&mut by_shell(name, "<&-"));
        assert_eq!(read, unread(name, "Bad file descriptor"));
    }
}

/// A socket that has these bytes to read, and then fails: its other end was
/// closed before it took what was sent to it.
fn broken(bytes: &[u8]) -> OwnedFd {
    let (mut ours, mut theirs) = UnixStream::pair().expect("two sockets");
    theirs.write_all(b"x").expect("room");
    ours.write_all(bytes).expect("room");
    theirs.into()
}

#[test]
fn an_input_that_fails_midway() {
    let mut input = nine();
    let lines = panel::print(&input);
    input.extend([13, 0, 0]); // not told as cut: more may have followed
    let (printed, told) = said(program("panelrun").stdin(broken(&input)));
    let (_, reset) = unread("panelrun", "Connection reset by peer");
    assert_eq!((printed, told), (lines, reset));
    let rehearsed = said(program("rehearse").stdin(broken(PLAN)));
    assert_eq!(rehearsed, unread("rehearse", "Connection reset by peer"));
}

#[test]
fn an_output_that_cannot_be_written() {
    let mut inputs = programs().to_vec();
    inputs.push(("panelrun", vec![13, 0, 0])); // a cut record alone
    for (name, input) in inputs {
        let full = File::options().write(true).open("/dev/full");
        let mut run = program(name);
        run.stdin(file(&input)).stdout(full.expect("the full disk"));
        assert_eq!(errors(&mut run), unwritten(name, "No space left on device"));
        let mut closed = by_shell(name, ">&-");
        assert_eq!(
            errors(closed.stdin(file(&input))),
            unwritten(name, "Bad file descriptor")
        );
    }
}

/// A disk that fills up: what fits stands there, and the rest is told.
#[test]
fn an_output_that_fills_up() {
    let events = profile::events(Profile::Mixed, 1, 8000);
    let input = panel::bytes(&events);
    let path = scratch();
    let plain = program("panelrun");
    let mut limited = Command::new("sh");
    limited.args(["-c", "trap '' XFSZ; ulimit -f 100; exec \"$0\" \"$@\""]);
    limited.arg(plain.get_program()).args(plain.get_args());
    let output = File::create(&path).expect("room for a file");
    let told = errors(limited.stdin(file(&input)).stdout(output));
    let written = fs::read_to_string(&path).expect("it was made");
    fs::remove_file(path).expect("it is there");
    assert_eq!(told, unwritten("panelrun", "File too large"));
    assert!(panel::print(&input).starts_with(&written));
    assert_eq!(written.len(), 100 * 512);
}
