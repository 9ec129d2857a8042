//! How a station lies in memory (`whipsail_kept.h`), little-endian.

use crate::memory::{twos, Reader, PADDING};
use model::codes::SORTS;
use model::{Pending, Remote, Station};

/// Its size in bytes.
pub const STATION: usize = 88;

fn put_pending(out: &mut Vec<u8>, p: &Pending) {
    out.extend(p.start.to_le_bytes());
    twos(out, &[p.identifier]);
    out.extend([p.wait, PADDING, PADDING, PADDING, PADDING, PADDING]);
}

pub fn put_station(out: &mut Vec<u8>, s: &Station) {
    let before = out.len();
    out.extend(s.last_time.to_le_bytes());
    twos(out, &[s.next_identifier]);
    out.extend([s.limit, PADDING, PADDING, PADDING, PADDING, PADDING]);
    let remote = &s.remote;
    remote.pending.iter().for_each(|p| put_pending(out, p));
    twos(out, &remote.kept);
    out.extend([remote.enabled, remote.allowed]);
    assert_eq!(out.len() - before, STATION);
}

/// The bytes of one station.
pub fn bytes(station: &Station) -> [u8; STATION] {
    let mut bytes = Vec::new();
    put_station(&mut bytes, station);
    bytes.try_into().expect("a whole station")
}

impl Reader<'_> {
    fn pending(&mut self) -> Pending {
        let start = self.eight();
        let identifier = self.two();
        let wait = self.one();
        self.skip(5);
        Pending {
            wait,
            identifier,
            start,
        }
    }

    fn remote(&mut self) -> Remote {
        Remote {
            pending: [(); SORTS].map(|()| self.pending()),
            kept: [(); 3].map(|()| self.two()),
            enabled: self.one(),
            allowed: self.one(),
        }
    }

    pub fn station(&mut self) -> Station {
        let last_time = self.eight();
        let next_identifier = self.two();
        let limit = self.one();
        self.skip(5);
        Station {
            last_time,
            next_identifier,
            limit,
            remote: self.remote(),
        }
    }
}
