//! The calls of the library on one file, and the stack that each takes.

use crate::entries::shown;
use harness::ffi::{self, HASHES};
use harness::hostile::{self, Case};
use harness::index_file::{self, list_entry};
use harness::kind::Kind;
use harness::replies::{CheckReply, WORKSPACE};
use harness::stack;
pub use nerupazhil::raw::VERSION_LOWEST as LOWEST;

/// What the calls are asked on a file of a kind, and what they may write to.
pub struct Request {
    kind: Kind,
    file: Vec<u8>,
    counts: CheckReply,
    /// The last entry, to be removed, or where there is none a path to the last level.
    old: Vec<u8>,
    /// An entry beside it, to be put.
    new: Vec<u8>,
    /// The version to be written.
    pub asked: u32,
    work: Vec<u8>,
    out: Vec<u8>,
}

impl Request {
    /// The calls' request on a file of a kind whose tree has the given number of levels.
    pub fn new(kind: Kind, case: &Case, levels: usize) -> Result<Self, String> {
        let mut work = vec![0; WORKSPACE];
        let counts = ffi::check(kind.number(), &case.bytes, &mut work);
        if counts.refusal != 0 {
            return Err(format!("{}: {counts:?}", case.name));
        }
        let old = match counts.entries {
            0 => hostile::chain_path(levels),
            n => {
                let last = ffi::entry(kind.number(), &case.bytes, &mut work, n - 1);
                shown(&case.bytes, &work, last.name).to_vec()
            }
        };
        Ok(Self {
            kind,
            new: [&old[..old.len() - 1], b"~"].concat(),
            old,
            counts,
            file: case.bytes.clone(),
            asked: LOWEST,
            work,
            out: vec![0; index_file::LARGEST],
        })
    }
}

/// A call, and what stack it took.
pub type Call = (&'static str, fn(&mut Request) -> usize);

pub const CALLS: [Call; 10] = [
    ("check", |r| {
        depth(|| ffi::check(r.kind.number(), &r.file, &mut r.work))
    }),
    ("entry", |r| {
        let k = r.counts.entries.saturating_sub(1);
        depth(|| ffi::entry(r.kind.number(), &r.file, &mut r.work, k))
    }),
    ("tree_node", |r| {
        let k = r.counts.nodes.saturating_sub(1);
        depth(|| ffi::tree_node(r.kind.number(), &r.file, &mut r.work, k))
    }),
    ("undo_record", |r| {
        let k = r.counts.records.saturating_sub(1);
        depth(|| ffi::undo_record(r.kind.number(), &r.file, &mut r.work, k))
    }),
    ("rewrite", |r| {
        depth(|| ffi::rewrite(r.kind.number(), &r.file, &mut r.work, &mut r.out, r.asked))
    }),
    ("put", |r| {
        depth(|| {
            ffi::put(
                r.kind.number(),
                &r.file,
                &mut r.work,
                &mut r.out,
                r.asked,
                &r.new,
                list_entry(r.kind),
            )
        })
    }),
    ("remove", |r| {
        depth(|| {
            ffi::remove(
                r.kind.number(),
                &r.file,
                &mut r.work,
                &mut r.out,
                r.asked,
                &r.old,
                0,
            )
        })
    }),
    ("walk_start", |r| {
        depth(|| ffi::walk_start(r.kind.number(), &r.file, &mut r.work))
    }),
    ("walk_next", |r| {
        depth(|| ffi::walk_next(r.kind.number(), &r.file, 12, r.counts.entries))
    }),
    ("hash", |r| {
        let depths = HASHES.iter().map(|hash| depth(|| hash.digest(&r.file)));
        depths.max().unwrap_or(0)
    }),
];

/// How many bytes of stack a call takes.
pub fn depth<T>(mut call: impl FnMut() -> T) -> usize {
    stack::depth(&mut || drop(call()))
}
