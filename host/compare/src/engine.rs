//! The library, behind the C program that serves it (`host/c/serve.c`).

use crate::memory::{self, Reader};
use crate::plans;
use crate::tables::{Laid, Told};
use crate::wire::{Board, Played, Ran};
use model::{panel, Event, Station};
use std::io::{Read, Write};
use std::ops::Range;
use std::path::{Path, PathBuf};
use std::process::{Child, ChildStdin, ChildStdout, Command, Stdio};

/// Which archive a program was linked with.
#[derive(Clone, Copy, Debug, PartialEq, Eq)]
pub enum Archive {
    /// `target/native`, for this machine.
    Native,
    /// `target/staticlib`, for x86-64: elsewhere an emulator runs it.
    Proved,
}

impl Archive {
    /// Those that differ: on x86-64 the native archive is the proved one.
    pub fn all() -> &'static [Archive] {
        match std::env::consts::ARCH {
            "x86_64" => &[Archive::Native],
            _ => &[Archive::Native, Archive::Proved],
        }
    }

    /// One part in so many of a test is enough where an emulator runs it.
    pub fn part(self, count: u64) -> u64 {
        match self {
            Archive::Native => count,
            Archive::Proved => count.div_ceil(8),
        }
    }

    /// A C program that was built with this crate.
    pub fn program(self, name: &str) -> Command {
        let out = Path::new(env!("OUT_DIR"));
        match self {
            Archive::Native => Command::new(out.join("native").join(name)),
            Archive::Proved => {
                let mut run = Command::new(host("c/run"));
                run.arg(out.join("x86-64").join(name));
                run
            }
        }
    }
}

/// A file below `host/`.
pub fn host(path: &str) -> PathBuf {
    Path::new(env!("CARGO_MANIFEST_DIR")).join("..").join(path)
}

/// A running server; it ends when this is dropped.
pub struct Engine {
    child: Child,
    requests: Option<ChildStdin>,
    replies: ChildStdout,
    /// Whether the server's board has a table that it can lend.
    lends: bool,
}

impl Engine {
    pub fn start(archive: Archive) -> Engine {
        let mut child = archive
            .program("serve")
            .stdin(Stdio::piped())
            .stdout(Stdio::piped())
            .spawn()
            .expect("the server starts");
        let requests = child.stdin.take();
        let replies = child.stdout.take().expect("a pipe");
        Engine {
            child,
            requests,
            replies,
            lends: true,
        }
    }

    /// Sends the commands, and hands back that many bytes of reply. The server
    /// reads a request to its end before it replies, so neither waits for the
    /// other in vain.
    fn ask(&mut self, commands: &[u8], reply: usize) -> Vec<u8> {
        let requests = self.requests.as_mut().expect("open until dropped");
        let length = u32::try_from(commands.len()).expect("a short request");
        let mut bytes = vec![0; reply];
        requests
            .write_all(&length.to_le_bytes())
            .and_then(|()| requests.write_all(commands))
            .and_then(|()| requests.flush())
            .and_then(|()| self.replies.read_exact(&mut bytes))
            .expect("the server answers");
        bytes
    }

    /// Plays each list of events in both ways. It meets its board; with none,
    /// each way goes on from what it has left of the list before.
    pub fn play<'a>(
        &mut self,
        lists: impl Iterator<Item = (Option<&'a Board>, &'a [Event])>,
    ) -> Vec<Played> {
        let mut commands = Vec::new();
        let mut counts = Vec::new();
        for (board, events) in lists {
            if let Some(board) = board {
                put_board(&mut commands, board);
                self.lends = board.fits();
            }
            let lent = if self.lends { events } else { &[] };
            for event in lent {
                commands.push(b'E');
                memory::put_event(&mut commands, event);
            }
            put_run(&mut commands, &panel::bytes(events));
            counts.push(lent.len());
        }
        let size = |&count: &usize| count * memory::STEPPED + memory::RAN;
        let reply = self.ask(&commands, counts.iter().map(size).sum());
        let mut reader = Reader(&reply);
        let mut played = |&count: &usize| Played {
            steps: (0..count).map(|_| reader.stepped()).collect(),
            ran: reader.ran(),
        };
        counts.iter().map(&mut played).collect()
    }

    /// A run over bytes.
    pub fn run(&mut self, board: &Board, bytes: &[u8]) -> Ran {
        let mut commands = Vec::new();
        put_board(&mut commands, board);
        put_run(&mut commands, bytes);
        Reader(&self.ask(&commands, memory::RAN)).ran()
    }

    /// Lends each table for one event.
    pub fn lend(&mut self, cases: &[Laid]) -> Vec<Told> {
        let mut commands = Vec::new();
        for laid in cases {
            put_lent(&mut commands, b'L', laid.before.len(), laid.lent());
            memory::put_station(&mut commands, &laid.station);
            memory::put_event(&mut commands, &laid.event);
            commands.extend(laid.before.iter().flatten());
        }
        let sizes = cases.iter().map(|laid| memory::told(laid.before.len()));
        let reply = self.ask(&commands, sizes.sum());
        let mut reader = Reader(&reply);
        cases
            .iter()
            .map(|laid| reader.told(laid.before.len()))
            .collect()
    }

    /// Lends each plan.
    pub fn rehearse(&mut self, cases: &[plans::Laid]) -> Vec<plans::Told> {
        let mut commands = Vec::new();
        for laid in cases {
            put_lent(&mut commands, b'P', laid.before.len(), laid.lent());
            memory::twos(&mut commands, &[laid.start]);
            memory::twos(&mut commands, &laid.before);
        }
        let sizes = cases
            .iter()
            .map(|laid| memory::rehearsed(laid.before.len()));
        let reply = self.ask(&commands, sizes.sum());
        let mut reader = Reader(&reply);
        cases
            .iter()
            .map(|laid| reader.rehearsed(laid.before.len()))
            .collect()
    }

    /// The archive's format number.
    pub fn format(&mut self) -> u32 {
        let reply = self.ask(b"V", 4);
        u32::from_le_bytes(reply.try_into().expect("four bytes"))
    }

    pub fn fresh(&mut self, limit: u8, enabled: u8, allowed: u8) -> (u8, Station) {
        let commands = [b'F', limit, enabled, allowed];
        Reader(&self.ask(&commands, memory::MADE)).made()
    }

    pub fn fresh_short(&mut self) -> Station {
        Reader(&self.ask(b"S", memory::STATION)).station()
    }

    pub fn well_made(&mut self, events: &[Event]) -> Vec<u8> {
        let mut commands = Vec::new();
        for event in events {
            commands.push(b'W');
            memory::put_event(&mut commands, event);
        }
        self.ask(&commands, events.len())
    }

    /// The event at a place among bytes, and whether it is whole.
    pub fn event_at(&mut self, bytes: &[u8], place: u64) -> (u8, Event) {
        let mut commands = vec![b'R'];
        commands.extend((bytes.len() as u64).to_le_bytes());
        commands.extend(place.to_le_bytes());
        commands.extend(bytes);
        Reader(&self.ask(&commands, memory::READ)).read()
    }
}

fn put_board(commands: &mut Vec<u8>, board: &Board) {
    commands.push(b'B');
    memory::put_board(commands, board);
}

fn put_run(commands: &mut Vec<u8>, bytes: &[u8]) {
    commands.push(b'N');
    commands.extend((bytes.len() as u64).to_le_bytes());
    commands.extend(bytes);
}

/// A command that lends a part of what follows it.
fn put_lent(commands: &mut Vec<u8>, letter: u8, all: usize, place: Range<usize>) {
    commands.push(letter);
    for count in [all, place.start, place.len()] {
        commands.extend((count as u64).to_le_bytes());
    }
}

impl Drop for Engine {
    fn drop(&mut self) {
        // An end of input ends the server.
        self.requests = None;
        let _ = self.child.wait();
    }
}
