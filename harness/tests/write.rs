//! The calls that write, called as C calls them: results that are written out here, empty slices, a small stack, a
//! result that would be far too long.

#![deny(warnings)]

use harness::comparison::{Comparison, Reply};
use harness::index_file::{self, list_entry};
use harness::inputs::requests::Call;
use harness::kind::Kind;
use harness::lent::{Edge, Place};
use harness::replies::{Fields, WriteReply, WORKSPACE};
use harness::{ffi, hostile};
use nerupazhil::raw::{self, SHA1};
use std::ptr::{null, null_mut};
use std::thread;

/// A refusal of any call has no length.
fn refused(number: u32) -> WriteReply {
    WriteReply {
        refusal: number,
        place: 0,
        length: 0,
    }
}

// ---- results that are written out

/// What both libraries write with an output of the given number of bytes, or how they refuse.
fn written(kind: Kind, file: &[u8], call: Call, room: usize) -> Result<Vec<u8>, u32> {
    let mut comparison = Comparison::new(Place::Pages);
    comparison.lend_file(file, Edge::End);
    comparison.lend_name(call.name(), Edge::End);
    let reply = comparison.both(kind.number(), &call, WORKSPACE, room);
    match reply.unwrap() {
        Reply::Write(reply) if reply.refusal == 0 => Ok(comparison.written(reply.length).to_vec()),
        reply => Err(reply.refusal()),
    }
}

/// A file of these parts before the checksum.
fn with_checksum(kind: Kind, parts: &[&[u8]]) -> Vec<u8> {
    kind.signed(parts.concat())
}

/// An entry up to its name: the last two bytes of the mode, the byte of the object name, the flags and what follows.
fn fixed(kind: Kind, mode: [u8; 2], object: u8, flags: &[u8]) -> Vec<u8> {
    let object = vec![object; kind.width()];
    [&[0; 26], &mode[..], &[0; 12], &object, flags].concat()
}

/// An entry of version 2 with a name of three bytes.
fn row(kind: Kind, name: &[u8; 3]) -> Vec<u8> {
    let padding = match kind {
        Kind::Sha1 => 7,
        Kind::Sha256 => 3,
    };
    [
        fixed(kind, [0x81, 0xa4], 0x11, &[0, 3]),
        name.to_vec(),
        vec![0; padding],
    ]
    .concat()
}

/// The entries a-b, a/b and a/c in version 4, which have three bytes and share their beginning.
fn short_rows(kind: Kind) -> [Vec<u8>; 3] {
    let rests: [&[u8]; 3] = [b"\0\x03\0a-b\0", b"\0\x03\x02/b\0", b"\0\x03\x01c\0"];
    rests.map(|rest| fixed(kind, [0x81, 0xa4], 0x11, rest))
}

const HEAD: &[u8] = b"DIRC\0\0\0\x02\0\0\0\x03";
const HEAD_4: &[u8] = b"DIRC\0\0\0\x04\0\0\0\x03";

/// The TREE of these nodes; the bytes of valid ones follow their texts.
fn tree(kind: Kind, nodes: &[(&[u8], Option<u8>)]) -> Vec<u8> {
    let mut data = Vec::new();
    for (text, object) in nodes {
        data.extend(*text);
        data.extend(object.map_or(Vec::new(), |byte| vec![byte; kind.width()]));
    }
    [&b"TREE\0\0\0"[..], &[data.len() as u8], &data].concat()
}

/// The entries a-b, a/b and a/c of document 01 and their tree, of 51 bytes for SHA-1.
fn example(kind: Kind) -> Vec<u8> {
    let rows = [b"a-b", b"a/b", b"a/c"].map(|name| row(kind, name));
    with_checksum(kind, &[HEAD, &rows.concat(), &example_tree(kind)])
}

fn example_tree(kind: Kind) -> Vec<u8> {
    tree(
        kind,
        &[(b"\x003 1\n", Some(0x33)), (b"a\x002 0\n", Some(0x34))],
    )
}

fn regular(kind: Kind) -> Fields {
    Fields {
        mode: 0o100644,
        object: kind.object_of(0x11),
        ..Fields::default()
    }
}

#[test]
fn a_plain_file_is_rewritten_as_it_is() {
    for kind in Kind::ALL {
        let file = example(kind);
        assert_eq!(written(kind, &file, Call::Rewrite(1), file.len()), Ok(file));
    }
}

#[test]
fn a_plain_file_in_version_4() {
    for kind in Kind::ALL {
        let parts = [HEAD_4, &short_rows(kind).concat(), &example_tree(kind)];
        let after = with_checksum(kind, &parts);
        for asked in [0, 4] {
            let given = written(kind, &example(kind), Call::Rewrite(asked), after.len());
            assert_eq!(given, Ok(after.clone()));
        }
        let back = written(kind, &after, Call::Rewrite(1), 1000);
        assert_eq!(back, Ok(example(kind)));
    }
}

#[test]
fn a_put_of_the_record_that_is_there() {
    for kind in Kind::ALL {
        let put = || Call::Put(1, b"a/c".to_vec(), regular(kind));
        let tree = b"TREE\0\0\0\x0d\x00-1 1\na\x00-1 0\n";
        let rows = [b"a-b", b"a/b", b"a/c"].map(|name| row(kind, name));
        let after = with_checksum(kind, &[HEAD, &rows.concat(), tree]);
        let file = example(kind);
        assert_eq!(written(kind, &file, put(), after.len() - 1), Err(20));
        assert_eq!(written(kind, &file, put(), after.len()), Ok(after));
    }
}

#[test]
fn a_remove_beside_a_directory() {
    for kind in Kind::ALL {
        let head = b"DIRC\0\0\0\x02\0\0\0\x02";
        let tree = tree(kind, &[(b"\x00-1 1\n", None), (b"a\x002 0\n", Some(0x34))]);
        let after = with_checksum(kind, &[head, &row(kind, b"a/b"), &row(kind, b"a/c"), &tree]);
        let remove = Call::Remove(2, b"a-b".to_vec(), 0);
        let file = example(kind);
        assert_eq!(written(kind, &file, remove, after.len()), Ok(after));
    }
}

#[test]
fn a_put_that_needs_the_extended_word() {
    for kind in Kind::ALL {
        let fields = Fields {
            mode: 0o100755,
            object: kind.object_of(0x22),
            stage: 3,
            skip_worktree: true,
            ..Fields::default()
        };
        let put = |asked| Call::Put(asked, b"a/c".to_vec(), fields);
        let head = b"DIRC\0\0\0\x02\0\0\0\x02";
        let file = with_checksum(kind, &[head, &row(kind, b"a-b"), &row(kind, b"a/b")]);
        let before = short_rows(kind)[..2].concat();
        let last = fixed(kind, [0x81, 0xed], 0x22, b"\x70\x03\x40\0\x01c\0");
        let after = with_checksum(kind, &[HEAD_4, &before, &last]);
        for asked in [0, 4] {
            let given = written(kind, &file, put(asked), after.len());
            assert_eq!(given, Ok(after.clone()));
        }
        assert_eq!(written(kind, &file, put(2), 1000), Err(21));
        let before = [row(kind, b"a-b"), row(kind, b"a/b")].concat();
        let rest: &[u8] = match kind {
            Kind::Sha1 => b"\x70\x03\x40\0a/c\0\0\0\0\0",
            Kind::Sha256 => b"\x70\x03\x40\0a/c\0",
        };
        let last = fixed(kind, [0x81, 0xed], 0x22, rest);
        let lowest = with_checksum(kind, &[b"DIRC\0\0\0\x03\0\0\0\x03", &before, &last]);
        for asked in [1, 3] {
            let given = written(kind, &file, put(asked), lowest.len());
            assert_eq!(given, Ok(lowest.clone()));
        }
    }
}

// ---- calls as C makes them

/// A null pointer with length 0 is an empty slice: the workspace is too small.
#[test]
fn null_pointers_are_empty_slices() {
    let (kind, fields, object) = (SHA1, [0; 14], [0; raw::OBJECT]);
    let mut replies = [[u64::MAX; 3]; 3];
    let [rewrite, put, remove] = &mut replies;
    let (file, name, none) = (null(), null(), null_mut());
    // SAFETY: each length is 0, and the others are arrays.
    unsafe {
        raw::nerupazhil_rewrite(kind, file, 0, none, 0, none, 0, 0, rewrite);
        raw::nerupazhil_put(
            kind, file, 0, none, 0, none, 0, 0, name, 0, &fields, &object, put,
        );
        raw::nerupazhil_remove(kind, file, 0, none, 0, none, 0, 0, name, 0, 0, remove);
    }
    assert_eq!(replies, [[19, 0, 0]; 3]);
}

/// With a workspace, an empty file is too short; with a file, an empty output is too small, and an empty name is no name.
#[test]
fn empty_slices_are_refused_by_number() {
    let mut work = vec![0; WORKSPACE];
    for kind in Kind::ALL {
        let file = index_file::File::new(kind, 2).finish();
        let (number, entry) = (kind.number(), list_entry(kind));
        assert_eq!(ffi::rewrite(number, &[], &mut work, &mut [], 0), refused(1));
        assert_eq!(
            ffi::rewrite(number, &file, &mut work, &mut [], 0),
            refused(20)
        );
        assert_eq!(
            ffi::put(number, &file, &mut work, &mut [], 0, b"", entry),
            refused(9)
        );
        assert_eq!(
            ffi::remove(number, &file, &mut work, &mut [], 0, b"", 0),
            refused(18)
        );
    }
}

/// 128 levels of nodes, with an entry at the last: rewritten, and a new entry put beside it, with 64 KiB of stack.
#[test]
fn deep_trees_need_little_stack() {
    for version in [2, 4] {
        let file = hostile::deep_entry(Kind::Sha1, version);
        let run = move || {
            let mut work = vec![0; WORKSPACE];
            let mut out = vec![0; file.len() + 1024];
            let rewritten = ffi::rewrite(SHA1, &file, &mut work, &mut out, version);
            let put = ffi::put(
                SHA1,
                &file,
                &mut work,
                &mut out,
                version,
                b"new.txt",
                list_entry(Kind::Sha1),
            );
            (rewritten.refusal, put.refusal)
        };
        let thread = thread::Builder::new().stack_size(64 << 10);
        assert_eq!(thread.spawn(run).unwrap().join().unwrap(), (0, 0));
    }
}

/// A file of version 4 with long names would have gigabytes in version 2.
#[test]
fn a_result_far_too_long_is_refused() {
    let file = hostile::long_names(Kind::Sha1, 8000, index_file::LARGEST);
    let mut work = vec![0; WORKSPACE];
    assert_eq!(ffi::rewrite(SHA1, &file, &mut work, &mut [], 2), refused(2));
}
