//! A first comparison of the plain library with the proved one: every call, and all that it may write.

use std::fmt::Debug;

use harness::index_file::{letters, list_entry, node, object, File, LARGEST};
use harness::kind::Kind;
use harness::replies::{Fields, StepReply, WORKSPACE};
use harness::{ffi, opponent, vectors};

use super::{cases, extend, index, put, workspace};

/// Makes the same call of both libraries. `work` and `out` are what is lent, an output of the given number of bytes.
macro_rules! both {
    ($kind:ident, $file:ident, $length:expr, |$work:ident, $out:ident| $call:ident($($value:expr),*)) => {
        same(
            concat!(stringify!($call), stringify!(($($value),*))),
            $file,
            $length,
            |$work, $out| ffi::$call($kind.number(), $($value),*),
            |$work, $out| opponent::$call($kind.number(), $($value),*),
        )
    };
}

/// Compares the answers of two calls, and the workspaces and outputs that they leave.
fn same<R: PartialEq + Debug>(
    call: &str,
    file: &[u8],
    length: usize,
    proved: impl Fn(&mut [u8], &mut [u8]) -> R,
    plain: impl Fn(&mut [u8], &mut [u8]) -> R,
) -> R {
    let lent = || (workspace(), vec![0x5a; length]);
    let (mut proved_lent, mut plain_lent) = (lent(), lent());
    let proved = proved(&mut proved_lent.0, &mut proved_lent.1);
    let plain = plain(&mut plain_lent.0, &mut plain_lent.1);
    assert_eq!(proved, plain, "{call} of {file:02x?}");
    assert!(proved_lent == plain_lent, "{call} leaves of {file:02x?}");
    plain
}

/// Compares all calls on a file.
fn all_calls(kind: Kind, file: &[u8]) {
    let reply = both!(kind, file, 0, |work, _out| check(file, work));
    for k in 0..=reply.entries {
        both!(kind, file, 0, |work, _out| entry(file, work, k));
    }
    for k in 0..=reply.nodes {
        both!(kind, file, 0, |work, _out| tree_node(file, work, k));
    }
    for k in 0..=reply.records {
        both!(kind, file, 0, |work, _out| undo_record(file, work, k));
    }
    for k in [reply.entries.wrapping_sub(1), u32::MAX] {
        both!(kind, file, 0, |work, _out| entry(file, work, k));
        both!(kind, file, 0, |work, _out| tree_node(file, work, k));
        both!(kind, file, 0, |work, _out| undo_record(file, work, k));
    }
    small_workspaces(kind, file);
    rewrites(kind, file);
    edits(kind, file);
    walk(kind, file);
}

fn small_workspaces(kind: Kind, file: &[u8]) {
    for length in [0, WORKSPACE - 1, WORKSPACE] {
        both!(kind, file, 0, |work, _out| check(file, &mut work[..length]));
        both!(kind, file, 0, |work, _out| entry(
            file,
            &mut work[..length],
            0
        ));
        both!(kind, file, 9, |work, out| rewrite(
            file,
            &mut work[..length],
            out,
            0
        ));
    }
}

/// Rewrites in each version, with outputs that are large, just large enough and too small.
fn rewrites(kind: Kind, file: &[u8]) {
    for asked in [0, 1, 2, 3, 4, 5, u32::MAX] {
        let most = 4 * file.len() + 1000;
        let reply = both!(kind, file, most, |work, out| rewrite(
            file, work, out, asked
        ));
        let length = reply.length;
        both!(kind, file, length, |work, out| rewrite(
            file, work, out, asked
        ));
        let less = length.saturating_sub(1);
        both!(kind, file, less, |work, out| rewrite(
            file, work, out, asked
        ));
    }
}

/// Puts and removes names of the file and others.
fn edits(kind: Kind, file: &[u8]) {
    let mut fields = list_entry(kind);
    fields.size = 0x01020304;
    let mut names: Vec<Vec<u8>> = super::names(kind, file);
    let others = [
        "", "a", "a/", "a//b", "a-c", "a/c/d", ".git", "x/.git", "zz/y",
    ];
    names.extend(others.map(|name| name.as_bytes().to_vec()));
    for (i, name) in names.iter().enumerate() {
        let asked = i as u32 % 6;
        fields.stage = i as u32 % 5;
        fields.mode = [0o100644, 0o100755, 0o120000, 0o160000, 0o40000][i / 2 % 5];
        fields.skip_worktree = i % 3 == 0;
        fields.intent_to_add = i % 4 == 0;
        fields.assume_valid = i % 2 == 0;
        let most = 4 * file.len() + 1000;
        both!(kind, file, most, |work, out| put(
            file, work, out, asked, name, fields
        ));
        both!(kind, file, 200, |work, out| put(
            file, work, out, asked, name, fields
        ));
        for stage in [0, i as u32 % 5] {
            both!(kind, file, most, |work, out| remove(
                file, work, out, asked, name, stage
            ));
        }
    }
}

/// A walk from its start to its end, and steps at other places.
fn walk(kind: Kind, file: &[u8]) {
    let start = both!(kind, file, 0, |work, _out| walk_start(file, work));
    let (mut at, mut left) = (start.at, start.left);
    for _ in 0..=start.left {
        let step = step(kind, file, at, left);
        (at, left) = (step.at, step.left);
    }
    let last = file.len().min(1000);
    for at in (0..last + 2).chain([usize::MAX - 70, usize::MAX]) {
        step(kind, file, at, 1);
    }
}

fn step(kind: Kind, file: &[u8], at: usize, left: u32) -> StepReply {
    let proved = ffi::walk_next(kind.number(), file, at, left);
    let plain = opponent::walk_next(kind.number(), file, at, left);
    assert_eq!(proved, plain, "{left} left at {at} of {file:02x?}");
    plain
}

/// A small file with all kinds of records in a version, its tree valid or not.
fn small(kind: Kind, version: u32, valid: bool) -> Vec<u8> {
    let mut file = index(kind, version, &[b"a-b", b"a/b", b"b/c/d", b"e"]);
    for stage in [1, 2] {
        let fields = Fields {
            stage,
            assume_valid: stage == 2,
            skip_worktree: stage == 2 && version > 2,
            ..list_entry(kind)
        };
        file = put(kind, &file, version, b"a/c", fields).unwrap();
    }
    let mut tree = Vec::new();
    let count = |count: i64| if valid { count } else { -count };
    node(kind, &mut tree, b"", count(6), 2);
    node(kind, &mut tree, b"b", count(1), 1);
    node(kind, &mut tree, b"c", 1, 0);
    node(kind, &mut tree, b"a", 3, 0);
    let object = object(kind);
    let one = [&b"plan\x00100644\x000\x00100644\0"[..], &object, &object].concat();
    let two = [&b"x/y\x000\x000\x00160000\0"[..], &object].concat();
    let file = extend(kind, &file, b"REUC", &[one, two].concat());
    let file = extend(kind, &file, b"XTRA", b"passed over");
    extend(kind, &file, b"TREE", &tree)
}

/// Small files of each kind.
fn small_files() -> Vec<(Kind, Vec<u8>)> {
    let mut files = Vec::new();
    for kind in Kind::ALL {
        let sorts = [(2, true), (3, false), (4, true), (4, false)];
        files.extend(sorts.map(|(version, valid)| (kind, small(kind, version, valid))));
    }
    files
}

#[test]
fn stored_files() {
    for kind in Kind::ALL {
        for vector in vectors::all(kind) {
            all_calls(kind, &vector.file);
        }
    }
}

#[test]
fn files_for_single_rules() {
    for kind in Kind::ALL {
        for (file, _) in cases::all(kind) {
            all_calls(kind, &file);
            all_calls(kind, &kind.left_out(kind.body(&file)));
        }
    }
}

#[test]
fn all_cuts_of_small_files() {
    for (kind, file) in small_files() {
        all_calls(kind, &file);
        for length in 0..file.len() {
            let cut = &file[..length];
            both!(kind, cut, 0, |work, _out| check(cut, work));
            all_calls(kind, &kind.signed(cut.to_vec()));
        }
    }
}

/// As long as they are, but zeros from a place on; and cut there, with the checksum left out.
#[test]
fn all_zeroed_tails_of_small_files() {
    for (kind, mut file) in small_files() {
        for place in (0..file.len()).rev() {
            file[place] = 0;
            all_calls(kind, &file);
            all_calls(kind, &kind.left_out(&file[..place]));
        }
    }
}

#[test]
fn results_at_the_limit() {
    for kind in Kind::ALL {
        // With SHA-256 the bytes around entries are 44, so that no file of entries alone has just the longest length.
        let (longest, most) = match kind {
            Kind::Sha1 => (929, LARGEST),
            Kind::Sha256 => (1477, LARGEST - 4),
        };
        for (last, length, refusal) in [(longest, most, 0), (longest + 1, 0, 2)] {
            let file = &file_near_limit(kind, last)[..];
            let reply = both!(kind, file, LARGEST, |work, out| rewrite(file, work, out, 2));
            assert_eq!((reply.length, reply.refusal), (length, refusal));
            let reply = both!(kind, file, 99, |work, out| rewrite(file, work, out, 1));
            assert_eq!(reply.refusal, if refusal == 0 { 20 } else { 2 });
        }
    }
}

/// A file of version 4 that has about the longest length in version 2, by the length of its last name.
fn file_near_limit(kind: Kind, last: usize) -> Vec<u8> {
    let count = match kind {
        Kind::Sha1 => 2032,
        Kind::Sha256 => 2028,
    };
    let mut file = File::new(kind, 4);
    for i in 0..count {
        file.entry(&[&[b'n'; 8180][..], &letters(i, 10)].concat());
    }
    file.entry(&vec![b'z'; last]);
    file.finish()
}

#[test]
fn single_bytes_changed() {
    for (kind, file) in small_files() {
        for place in 0..file.len() - kind.width() {
            one_byte_changed(kind, &file, place);
        }
    }
}

/// One byte set to others, with the checksum right again: each bit turned, and bytes that mean something. At
/// every fourth place the first of them goes through all calls.
fn one_byte_changed(kind: Kind, file: &[u8], place: usize) {
    let mut body = file[..file.len() - kind.width()].to_vec();
    let old = body[place];
    let turned = (0..8).map(|bit| old ^ 1 << bit);
    for (i, value) in turned.chain(*b"\0\n -./01AZa\xff").enumerate() {
        body[place] = value;
        let changed = &kind.signed(body.clone())[..];
        both!(kind, changed, 0, |work, _out| check(changed, work));
        if i == 0 && place % 4 == 0 {
            all_calls(kind, changed);
        }
    }
}
