//! Resolve undo.

use std::ops::Range;

use super::names::{nul, sound};
use crate::kind::{Kind, OBJECT};
use crate::replies::Stage;

/// The records that fill the data.
pub struct Undo {
    kind: Kind,
    pub data: Range<usize>,
    pub records: u32,
}

/// A record: where its path and its object names are in the file, and the modes, 0 for a missing stage.
pub struct Record {
    kind: Kind,
    pub place: usize,
    pub length: usize,
    modes: [u32; 3],
    objects: usize,
}

impl Undo {
    /// Reads the records; nothing where they are malformed.
    pub fn read(kind: Kind, file: &[u8], data: Range<usize>) -> Option<Self> {
        let mut at = data.start;
        let mut records = 0;
        let mut before: &[u8] = &[];
        while at < data.end {
            let (record, next) = record_at(kind, &file[..data.end], at)?;
            let path = &file[at..at + record.length];
            if path <= before {
                return None;
            }
            before = path;
            records += 1;
            at = next;
        }
        Some(Self {
            kind,
            data,
            records,
        })
    }

    /// Record `k`.
    pub fn record(&self, file: &[u8], k: u32) -> Option<Record> {
        if k >= self.records {
            return None;
        }
        let mut at = self.data.start;
        for _ in 0..k {
            at = record_at(self.kind, file, at)?.1;
        }
        Some(record_at(self.kind, file, at)?.0)
    }
}

impl Record {
    /// The three stages: zeros for the object name of a missing one.
    pub fn stages(&self, file: &[u8]) -> [Stage; 3] {
        let mut at = self.objects;
        self.modes.map(|mode| {
            let mut object = [0; OBJECT];
            if mode != 0 {
                object = self.kind.object(&file[at..]);
                at += self.kind.width();
            }
            Stage { mode, object }
        })
    }
}

/// The record at a place and the place after it.
fn record_at(kind: Kind, data: &[u8], place: usize) -> Option<(Record, usize)> {
    let path_end = nul(data, place)?;
    let mut at = path_end + 1;
    let mut modes = [0; 3];
    for mode in &mut modes {
        let end = nul(data, at)?;
        *mode = mode_of(&data[at..end])?;
        at = end + 1;
    }
    let present = modes.iter().filter(|mode| **mode != 0).count();
    let next = at + present * kind.width();
    let record = Record {
        kind,
        place,
        length: path_end - place,
        modes,
        objects: at,
    };
    let right = sound(&data[place..path_end], 0) && present > 0 && next <= data.len();
    right.then_some((record, next))
}

fn mode_of(text: &[u8]) -> Option<u32> {
    match text {
        b"0" => Some(0),
        b"100644" => Some(0o100644),
        b"100755" => Some(0o100755),
        b"120000" => Some(0o120000),
        b"160000" => Some(0o160000),
        _ => None,
    }
}
