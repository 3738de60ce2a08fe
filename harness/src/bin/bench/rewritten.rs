//! An index in the lowest version and in version 4, and the time of the calls that write either.

use crate::calls::LOWEST;
use harness::index_file::LARGEST;
use harness::kind::Kind;
use harness::replies::WORKSPACE;
use harness::{ffi, timing};
use nerupazhil::Refusal;
use std::cell::RefCell;

/// The object names of the files.
const KIND: Kind = Kind::Sha1;
/// More than elsewhere: of 11, a ratio of short files moved by a quarter on a shared machine.
pub const RUNS: usize = 51;
/// The versions that are asked for, and what they are called.
const ASKED: [(u32, &str); 2] = [(LOWEST, "the lowest version"), (4, "version 4")];

pub struct Index {
    pub name: String,
    pub entries: u32,
    /// Of all names together.
    pub name_bytes: usize,
    pub lowest: u32,
    /// In the lowest version, and in 4.
    pub files: [Vec<u8>; 2],
}

impl Index {
    /// The index that a file has, in both versions.
    pub fn new(name: &str, file: &[u8]) -> Result<Self, String> {
        let checked = ffi::check(KIND.number(), file, &mut [0; WORKSPACE]);
        let told = |words: String| format!("{name}, read with SHA-1 names: {words}");
        accepted(checked.refusal, checked.place).map_err(told)?;
        let files = [
            written(file, ASKED[0]).map_err(told)?,
            written(file, ASKED[1]).map_err(told)?,
        ];
        Ok(Self {
            name: name.to_string(),
            entries: checked.entries,
            name_bytes: name_bytes(&files[0]),
            lowest: ffi::check(KIND.number(), &files[0], &mut [0; WORKSPACE]).version,
            files,
        })
    }

    /// For each of the files the median seconds of a check and of a rewrite in the lowest version and in 4.
    pub fn seconds(&self) -> Result<[[f64; 3]; 2], String> {
        let call = |from: usize, to: Option<usize>| RefCell::new(Call::new(&self.files, from, to));
        let calls = [
            call(0, None),
            call(0, Some(0)),
            call(0, Some(1)),
            call(1, None),
            call(1, Some(0)),
            call(1, Some(1)),
        ];
        let run = |k: usize| calls[k].borrow_mut().run();
        let [a, b, c, d, e, f] = timing::alternate_often(
            RUNS,
            [
                &mut || run(0),
                &mut || run(1),
                &mut || run(2),
                &mut || run(3),
                &mut || run(4),
                &mut || run(5),
            ],
            || calls.iter().try_for_each(|call| call.borrow_mut().look()),
        )?;
        Ok([[a, b, c], [d, e, f]])
    }
}

/// What is said of a refusal.
fn accepted(refusal: u32, place: usize) -> Result<(), String> {
    match refusal {
        0 => Ok(()),
        _ => Err(Refusal::new(refusal, place).to_string()),
    }
}

/// The file in the version asked for.
fn written(file: &[u8], (asked, version): (u32, &str)) -> Result<Vec<u8>, String> {
    let mut out = vec![0; LARGEST];
    let reply = ffi::rewrite(KIND.number(), file, &mut [0; WORKSPACE], &mut out, asked);
    accepted(reply.refusal, reply.place).map_err(|words| format!("in {version}: {words}"))?;
    out.truncate(reply.length);
    Ok(out)
}

/// How many bytes the names in a file of version 2 or 3 have.
fn name_bytes(file: &[u8]) -> usize {
    let start = ffi::walk_start(KIND.number(), file, &mut [0; WORKSPACE]);
    let (mut at, mut left, mut bytes) = (start.at, start.left, 0);
    while left > 0 {
        let step = ffi::walk_next(KIND.number(), file, at, left);
        bytes += step.name.length;
        (at, left) = (step.at, step.left);
    }
    bytes
}

/// A check of one of the files, or a rewrite that has to give one of them.
struct Call<'a> {
    from: &'a [u8],
    asked: Option<u32>,
    wanted: &'a [u8],
    work: Vec<u8>,
    out: Vec<u8>,
    refusal: u32,
}

impl<'a> Call<'a> {
    fn new(files: &'a [Vec<u8>; 2], from: usize, to: Option<usize>) -> Self {
        let wanted: &[u8] = to.map_or(&[], |to| &files[to]);
        Self {
            from: &files[from],
            asked: to.map(|to| ASKED[to].0),
            wanted,
            work: vec![0; WORKSPACE],
            out: vec![0; wanted.len()],
            refusal: 0,
        }
    }

    fn run(&mut self) {
        let (kind, work) = (KIND.number(), &mut self.work);
        self.refusal = match self.asked {
            None => ffi::check(kind, self.from, work).refusal,
            Some(asked) => ffi::rewrite(kind, self.from, work, &mut self.out, asked).refusal,
        };
    }

    /// Looks at what the call gave, and takes it away.
    fn look(&mut self) -> Result<(), String> {
        timing::same("refusals", self.refusal, 0)?;
        timing::same("written as before", self.out == self.wanted, true)?;
        self.out.fill(0);
        Ok(())
    }
}

#[cfg(test)]
mod tests {
    use super::*;
    use harness::index_file::{list_entry, Order, Repository, NESTED};
    use harness::replies::Fields;

    const ENTRIES: u32 = 300;

    /// A file, and how many bytes its names have.
    fn made(version: u32) -> (Vec<u8>, usize) {
        let (file, names) = Repository {
            kind: KIND,
            version,
            widths: NESTED,
            order: Order::Git,
            most_entries: ENTRIES as usize,
            most_bytes: LARGEST,
        }
        .lay_out();
        (file, names.iter().map(Vec::len).sum())
    }

    #[test]
    fn both_versions_from_either() {
        let [(two, name_bytes), (four, _)] = [2, 4].map(made);
        for file in [&two, &four] {
            let index = Index::new("a file", file).expect("an index");
            assert_eq!((index.entries, index.lowest), (ENTRIES, 2));
            assert_eq!(index.name_bytes, name_bytes);
            assert!(index.files == [two.clone(), four.clone()]);
        }
    }

    #[test]
    fn an_extended_word_needs_version_3() {
        let (kind, file) = (KIND.number(), made(2).0);
        let (mut work, mut out) = ([0; WORKSPACE], vec![0; LARGEST]);
        let fields = Fields {
            skip_worktree: true,
            ..list_entry(KIND)
        };
        let reply = ffi::put(kind, &file, &mut work, &mut out, 4, b"new", fields);
        let index = Index::new("a file", &out[..reply.length]).expect("an index");
        assert_eq!((index.entries, index.lowest), (ENTRIES + 1, 3));
    }

    #[test]
    fn a_refusal_has_the_name_and_a_number_and_a_place() {
        let mut file = made(2).0;
        file[12] ^= 1;
        let message = Index::new("a file", &file).err().expect("a refusal");
        let place = file.len() - KIND.width();
        let start = format!("a file, read with SHA-1 names: refused 5 at {place}: ");
        assert!(message.starts_with(&start), "{message}");
    }
}
