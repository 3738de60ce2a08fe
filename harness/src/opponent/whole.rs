//! The whole file: header, entries, extensions and checksum.

use std::ops::Range;

use super::counts;
use super::entries::{long, Entries, HEADER};
use super::refusal::{self, Refusal};
use super::tree::Tree;
use super::undo::Undo;
use crate::kind::Kind;

/// The most bytes of a file.
pub const LONGEST: usize = 16_777_216;

pub const SIGNATURE: &[u8] = b"DIRC";

/// The bytes of an extension before its data.
const EXTENSION_HEADER: usize = 8;

/// What the last bytes of a file are: the hash of all before, zeros in its place, or neither.
#[derive(Clone, Copy, PartialEq, Eq)]
pub enum Checksum {
    Matches,
    LeftOut,
    Wrong,
}

/// What a file holds.
pub struct Contents<'a> {
    pub kind: Kind,
    pub file: &'a [u8],
    pub checksum: Checksum,
    pub entries: Entries<'a>,
    pub tree: Option<Tree<'a>>,
    pub undo: Option<Undo>,
}

/// Reads a file.
pub fn read(kind: Kind, file: &[u8]) -> Result<Contents<'_>, Refusal> {
    if file.len() > LONGEST {
        return Err(Refusal::whole(refusal::TOO_LONG));
    }
    let (version, count) = header(kind, file).map_err(Refusal::whole)?;
    let body = body(kind, file);
    let checksum = checksum(kind, body, &file[body.len()..]);
    if checksum == Checksum::Wrong {
        return Err(Refusal {
            number: refusal::CHECKSUM,
            place: body.len(),
        });
    }
    let mut contents = Contents {
        kind,
        file,
        checksum,
        entries: Entries::read(kind, body, version, count)?,
        tree: None,
        undo: None,
    };
    contents.extensions()?;
    Ok(contents)
}

/// The version and the entry count, or the number of what refuses the header.
pub fn header(kind: Kind, file: &[u8]) -> Result<(u32, u32), u32> {
    if file.len() < HEADER + kind.width() {
        return Err(refusal::TOO_SHORT);
    }
    if !file.starts_with(SIGNATURE) {
        return Err(refusal::SIGNATURE);
    }
    match long(file, 4) {
        version @ 2..=4 => Ok((version, long(file, 8))),
        _ => Err(refusal::VERSION),
    }
}

/// The file less its checksum.
pub fn body(kind: Kind, file: &[u8]) -> &[u8] {
    &file[..file.len() - kind.width()]
}

/// What the bytes after a body are. A hash that is zeros itself matches.
fn checksum(kind: Kind, body: &[u8], last: &[u8]) -> Checksum {
    if kind.hash(body)[..kind.width()] == *last {
        Checksum::Matches
    } else if last.iter().all(|byte| *byte == 0) {
        Checksum::LeftOut
    } else {
        Checksum::Wrong
    }
}

impl Contents<'_> {
    /// Reads the extensions, which fill the body after the entries.
    fn extensions(&mut self) -> Result<(), Refusal> {
        let mut place = self.entries.end;
        while place < self.entries.body.len() {
            let refused = |number| Refusal { number, place };
            let data = data_at(self.entries.body, place);
            let data = data.ok_or(refused(refusal::EXTENSION_CUT))?;
            let next = data.end;
            self.extension(place, data).map_err(refused)?;
            place = next;
        }
        Ok(())
    }

    fn extension(&mut self, place: usize, data: Range<usize>) -> Result<(), u32> {
        match &self.file[place..place + 4] {
            b"TREE" if self.tree.is_some() => Err(refusal::SECOND),
            b"REUC" if self.undo.is_some() => Err(refusal::SECOND),
            b"TREE" => {
                let tree = Tree::read(self.kind, self.file, data).ok_or(refusal::TREE)?;
                if !counts::right(&self.entries, &tree) {
                    return Err(refusal::COUNTS);
                }
                self.tree = Some(tree);
                Ok(())
            }
            b"REUC" => {
                self.undo = Some(Undo::read(self.kind, self.file, data).ok_or(refusal::UNDO)?);
                Ok(())
            }
            [b'A'..=b'Z', ..] => Ok(()),
            _ => Err(refusal::UNKNOWN),
        }
    }
}

/// The data of the extension at a place.
fn data_at(body: &[u8], place: usize) -> Option<Range<usize>> {
    let start = place + EXTENSION_HEADER;
    let rest = body.get(start..)?;
    let size = long(body, place + 4) as usize;
    (size <= rest.len()).then_some(start..start + size)
}
