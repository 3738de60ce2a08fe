//! A walk over all entries.

use std::fmt;
use std::iter::FusedIterator;

use crate::read::part;
use crate::{calls, Entry, Kind, Refusal};

/// Checks a file of version 2 or 3 and starts a walk over its entries. A file of version 4 is refused with 4; rewritten
/// in [`Version::Lowest`](crate::Version::Lowest) it has the same entries and is taken.
///
/// ```
/// # let file = include_bytes!(concat!(env!("CARGO_MANIFEST_DIR"), "/../tests/vectors/real/v2-committed.index"));
/// use nerupazhil::{walk, Kind, WORKSPACE};
///
/// let entries = walk(Kind::Sha1, file, &mut [0; WORKSPACE])?;
/// assert_eq!(entries.len(), 20);
/// for entry in entries {
///     println!("{:o} {}", entry.fields.mode, String::from_utf8_lossy(entry.name));
/// }
/// # Ok::<(), nerupazhil::Refusal>(())
/// ```
///
/// The file can't change under a walk:
///
/// ```compile_fail,E0506
/// # use nerupazhil::{walk, Kind, EMPTY, WORKSPACE};
/// let mut file = EMPTY;
/// let mut entries = walk(Kind::Sha1, &file, &mut [0; WORKSPACE]).unwrap();
/// file[0] = 0;
/// entries.next();
/// ```
pub fn walk<'a>(kind: Kind, file: &'a [u8], work: &mut [u8]) -> Result<Walk<'a>, Refusal> {
    let reply = calls::walk_start(kind.number(), file, work);
    Refusal::unless_zero(reply.refusal, reply.place)?;
    Ok(Walk {
        kind,
        file,
        at: reply.at,
        left: reply.left,
    })
}

/// All entries of a checked file, one after another. A step reads one entry.
#[derive(Clone)]
pub struct Walk<'a> {
    kind: Kind,
    file: &'a [u8],
    at: usize,
    left: u32,
}

/// The byte after the header, where a walk starts: `walk_start` answers it of every file.
const FIRST_ENTRY: usize = 12;

impl<'a> Walk<'a> {
    /// A walk over a file of version 2 or 3 that was checked and has as many entries as `entries`.
    pub(crate) fn over(kind: Kind, file: &'a [u8], entries: u32) -> Self {
        Self {
            kind,
            file,
            at: FIRST_ENTRY,
            left: entries,
        }
    }
}

impl<'a> Iterator for Walk<'a> {
    type Item = Entry<'a>;

    #[inline]
    fn next(&mut self) -> Option<Entry<'a>> {
        if self.left == 0 {
            return None;
        }
        let step = calls::walk_next(self.kind.number(), self.file, self.at, self.left);
        // Of its own, so that the assertion does not keep the whole reply in memory.
        let refusal = step.refusal;
        // A list that ends too early reads as deleted files: rather none at all.
        assert_eq!(refusal, 0, "the library refused an entry of a checked file");
        self.at = step.at;
        self.left = step.left;
        Some(Entry {
            name: part(self.file, step.name),
            fields: step.fields,
        })
    }

    #[inline]
    fn size_hint(&self) -> (usize, Option<usize>) {
        let left = self.left as usize;
        (left, Some(left))
    }
}

impl ExactSizeIterator for Walk<'_> {}

impl FusedIterator for Walk<'_> {}

impl fmt::Debug for Walk<'_> {
    fn fmt(&self, f: &mut fmt::Formatter<'_>) -> fmt::Result {
        f.debug_struct("Walk")
            .field("at", &self.at)
            .field("left", &self.left)
            .finish_non_exhaustive()
    }
}
