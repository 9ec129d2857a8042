//! The repository's programs, run as a script runs them; `rt run` builds them.

use crate::engine::host;
use std::fs::{self, File};
use std::os::fd::OwnedFd;
use std::os::unix::net::UnixDatagram;
use std::path::PathBuf;
use std::process::{Child, ChildStdin, Command, Stdio};
use std::sync::atomic::{AtomicU32, Ordering};
use std::thread;

/// What a program wrote on standard output and on standard error.
pub type Said = (String, String);

/// A program of `crates/NAME/out`, started by `host/c/run`.
pub fn program(name: &str) -> Command {
    let mut run = Command::new(host("c/run"));
    run.arg(host("../crates").join(name).join("out").join(name));
    run
}

/// The program when a shell has done something with its descriptors, such as `<&-`.
pub fn by_shell(name: &str, redirected: &str) -> Command {
    let plain = program(name);
    let mut shell = Command::new("sh");
    shell
        .arg("-c")
        .arg(format!("exec \"$0\" \"$@\" {redirected}"));
    shell.arg(plain.get_program()).args(plain.get_args());
    shell
}

/// What the command writes where standard output is not sent elsewhere.
pub fn said(command: &mut Command) -> Said {
    ended(started(command))
}

fn started(command: &mut Command) -> Child {
    command
        .stdout(Stdio::piped())
        .stderr(Stdio::piped())
        .spawn()
        .expect("the program starts")
}

fn ended(child: Child) -> Said {
    let done = child.wait_with_output().expect("it ends");
    assert!(done.status.success(), "{}: not 0", done.status);
    let words = |bytes| String::from_utf8(bytes).expect("plain text");
    (words(done.stdout), words(done.stderr))
}

/// A file of these bytes, open and without a name.
pub fn file(bytes: &[u8]) -> File {
    let path = scratch();
    fs::write(&path, bytes).expect("room for a file");
    let file = File::open(&path).expect("it was written");
    fs::remove_file(path).expect("it is there");
    file
}

/// A path that nobody has.
pub fn scratch() -> PathBuf {
    static COUNT: AtomicU32 = AtomicU32::new(0);
    let count = COUNT.fetch_add(1, Ordering::Relaxed);
    std::env::temp_dir().join(format!("whipsail-{}-{count}", std::process::id()))
}

/// Standard input is a file.
pub fn on_file(name: &str, input: &[u8]) -> Said {
    said(program(name).stdin(file(input)))
}

/// Standard input is a pipe; `feed` writes it.
pub fn on_pipe(name: &str, feed: impl FnOnce(ChildStdin) + Send) -> Said {
    let mut child = started(program(name).stdin(Stdio::piped()));
    let pipe = child.stdin.take().expect("a pipe");
    thread::scope(|scope| {
        scope.spawn(|| feed(pipe));
        ended(child)
    })
}

/// Standard input gives each read one of these pieces, and then its end: packets
/// are not joined, as bytes in a pipe are. No piece may be longer than a read.
pub fn on_packets(name: &str, pieces: &[&[u8]]) -> Said {
    let (ours, theirs) = UnixDatagram::pair().expect("two sockets");
    // once the program has ended, nobody holds its socket and sending fails
    let child = started(program(name).stdin(OwnedFd::from(theirs)));
    thread::scope(|scope| {
        let end: [&[u8]; 1] = [&[]];
        scope.spawn(move || {
            let mut all = pieces.iter().chain(&end);
            all.all(|piece| ours.send(piece).is_ok())
        });
        ended(child)
    })
}
