//! Every call in threads with as little stack as the header promises: on trees of every depth, and on shallow ones.

#![deny(warnings)]

use harness::ffi::HASHES;
use harness::hostile::{self, Case};
use harness::kind::{Kind, Object};
use harness::replies::{Fields, WORKSPACE};
use harness::{ffi, index_file};
use nerupazhil::{Index, ObjectName, Refusal, Version};
use std::thread;

/// KiB of a thread that runs every call on every file.
const ANY: usize = 64;

/// KiB of a thread that does where the cache tree has at most SHALLOW levels.
const FEW: usize = 32;
const SHALLOW: usize = 16;

/// KiB more for the functions of Index, which have their workspace on the stack.
const MORE: usize = 16;

/// Bytes of files that can be made as long as wanted.
const SHORT: usize = 100_000;

/// The fields of a new entry, the name of one to remove (the file's first, where it has one), and the file's digests.
struct Request {
    kind: Kind,
    fields: Fields,
    first: Vec<u8>,
    digests: Vec<Object>,
}

impl Request {
    fn of(kind: Kind, file: &[u8], work: &mut [u8]) -> Self {
        let entry = ffi::entry(kind.number(), file, work, 0);
        let buffer = if entry.name.buffer == 2 { work } else { file };
        let mut fields = entry.fields;
        fields.mode = 0o100644;
        Self {
            kind,
            fields,
            first: buffer[entry.name.offset..][..entry.name.length].to_vec(),
            digests: HASHES.iter().map(|hash| hash.kind.hash(file)).collect(),
        }
    }
}

/// The refusals of all calls that have one; the digests are compared here.
fn calls(file: &[u8], request: &Request, work: &mut [u8], out: &mut [u8]) -> [u32; 12] {
    let Request { fields, first, .. } = request;
    let kind = request.kind.number();
    for (hash, digest) in HASHES.iter().zip(&request.digests) {
        assert_eq!(&hash.digest(file), digest);
    }
    let mut refusals = [0; 12];
    refusals[0] = ffi::check(kind, file, work).refusal;
    refusals[1] = ffi::entry(kind, file, work, 0).refusal;
    refusals[2] = ffi::tree_node(kind, file, work, 0).refusal;
    refusals[3] = ffi::undo_record(kind, file, work, 0).refusal;
    refusals[4] = ffi::walk_start(kind, file, work).refusal;
    refusals[5] = ffi::walk_next(kind, file, 12, 1).refusal;
    for (i, asked) in [(6, 2), (9, 4)] {
        refusals[i] = ffi::rewrite(kind, file, work, out, asked).refusal;
        refusals[i + 1] = ffi::put(kind, file, work, out, asked, b"new", *fields).refusal;
        refusals[i + 2] = ffi::remove(kind, file, work, out, asked, first, 0).refusal;
    }
    refusals
}

/// The refusals of Index: of the file, or of a rewrite, a put and a removal in version 4.
fn of_index(kind: nerupazhil::Kind, file: &[u8], first: &[u8]) -> Vec<u32> {
    let fields = nerupazhil::Fields {
        mode: 0o100644,
        object: ObjectName::zero(kind),
        ..nerupazhil::Fields::default()
    };
    let index = match Index::read_kind(kind, file) {
        Ok(index) => index,
        Err(refusal) => return vec![refusal.number()],
    };
    let files = [
        index.rewritten(Version::V4),
        index.with(b"new", &fields, Version::V4),
        index.without(first, 0, Version::V4),
    ];
    files
        .map(|file| file.map_or_else(Refusal::number, |_| 0))
        .to_vec()
}

/// What a function answers in a thread with a small stack.
fn in_thread<T: Send>(kib: usize, function: impl FnOnce() -> T + Send) -> T {
    thread::scope(|scope| {
        let builder = thread::Builder::new().stack_size(kib << 10);
        builder
            .spawn_scoped(scope, function)
            .unwrap()
            .join()
            .unwrap()
    })
}

fn run(kib: usize, kind: Kind, case: Case) {
    let (name, file) = (case.name, case.bytes);
    let mut work = vec![0; WORKSPACE];
    let mut out = vec![0; index_file::LARGEST];
    let request = Request::of(kind, &file, &mut work);
    let refusals = in_thread(kib, || calls(&file, &request, &mut work, &mut out));
    assert_eq!(refusals[0], case.refusal, "{name}");
    let expected = match case.refusal {
        0 => &refusals[9..],
        _ => &refusals[..1],
    };
    let kind = match kind {
        Kind::Sha1 => nerupazhil::Kind::Sha1,
        Kind::Sha256 => nerupazhil::Kind::Sha256,
    };
    let shown = in_thread(kib + MORE, || of_index(kind, &file, &request.first));
    assert_eq!(shown, expected, "{name}");
}

#[test]
fn every_call_runs_on_shallow_trees_with_little_stack() {
    for kind in Kind::ALL {
        let mut cases = Vec::new();
        for levels in [1, 2, 4, SHALLOW] {
            cases.extend(hostile::deep_cases(kind, levels, SHORT));
            cases.extend(hostile::search_cases(kind, levels));
        }
        cases.extend(hostile::short_cases(kind));
        cases.extend(hostile::long_name_cases(kind, SHORT));
        cases.push(hostile::undo_case(kind, SHORT));
        for case in cases {
            run(FEW, kind, case);
        }
    }
}

#[test]
fn every_call_runs_on_deep_trees_with_little_stack() {
    for kind in Kind::ALL {
        for levels in [64, 128] {
            let mut cases = hostile::deep_cases(kind, levels, SHORT);
            cases.extend(hostile::search_cases(kind, levels));
            for case in cases {
                run(ANY, kind, case);
            }
        }
    }
}
