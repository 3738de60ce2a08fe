//! Results at the limit of a file's size and above it.

use super::records::{entry, file, putting, records, removing, rewriting, Tree};
use super::{in_versions, refused, Case, Group};
use crate::index_file::{padding, LARGEST};
use crate::inputs::records::{Entry, Extension, Records, INTENT_TO_ADD};
use crate::kind::Kind;
use std::sync::Arc;

/// The cases by groups, each of which takes much memory.
pub const LARGE: [Group; 5] = [full, one_less, puts, from_version_4, others];

/// The bytes of an entry before its name and the padding.
fn fixed(kind: Kind) -> usize {
    42 + kind.width()
}

/// An entry with one byte of padding in version 2; its name is a letter, once or some times. With N and a NUL it is one
/// byte longer in version 4.
fn tight(kind: Kind, letter: u8) -> Entry {
    entry(&vec![letter; padding(fixed(kind)) - 1], 0)
}

/// How many bytes such an entry has in version 2.
fn tight_bytes(kind: Kind) -> usize {
    fixed(kind) + padding(fixed(kind))
}

/// A file of version 2 and the given number of bytes: the name of a node, which has no limit, fills it.
fn filled(kind: Kind, entries: Vec<Entry>, total: usize, valid: bool) -> Records {
    let counts = if valid {
        (entries.len() as i64, 0)
    } else {
        (-1, -1)
    };
    let with = |name: &[u8]| {
        let tree = Tree::new(b"", counts.0, &[Tree::new(name, counts.1, &[])]);
        records(kind, 2, entries.clone(), vec![tree.extension()])
    };
    let fill = total - file(&with(b"")).len();
    with(&vec![b'x'; fill])
}

fn full(kind: Kind) -> Vec<Case> {
    let (a, b) = (tight(kind, b'a'), tight(kind, b'b'));
    let before = filled(kind, vec![a.clone()], LARGEST, false);
    let changes = [
        rewriting(&before),
        putting(&before, &a),
        removing(&before, &a.name, 0),
    ];
    let mut cases = first_refusals(&before, &a, &b);
    cases.extend(in_versions("full", &before, &changes, &[2]));
    cases.extend(in_versions("full", &before, &changes[..1], &[1]));
    let file = Arc::new(file(&before));
    for room in [0, LARGEST, LARGEST + 1] {
        for call in [rewriting(&before).call(0), putting(&before, &b).call(2)] {
            let over = refused(kind, "full, too long", &file, call, 2);
            let room = Some(room);
            cases.push(Case { room, ..over });
        }
    }
    cases
}

/// What comes first where the result would be too long too.
fn first_refusals(before: &Records, a: &Entry, b: &Entry) -> Vec<Case> {
    let word = Entry {
        word: Some(INTENT_TO_ADD),
        ..b.clone()
    };
    let stage = Entry {
        stage: 1,
        ..a.clone()
    };
    let rows = [
        (2, rewriting(before).call(4)),
        (2, putting(before, b).call(1)),
        (4, rewriting(before).call(5)),
        (4, putting(before, b).call(u32::MAX)),
        (21, putting(before, &word).call(2)),
        (11, putting(before, &stage).call(2)),
        (18, removing(before, b"c", 0).call(4)),
    ];
    let file = Arc::new(file(before));
    rows.map(|(number, call)| refused(before.kind, "full, first refusal", &file, call, number))
        .into()
}

fn one_less(kind: Kind) -> Vec<Case> {
    let before = filled(kind, vec![tight(kind, b'a')], LARGEST - 1, false);
    in_versions("one byte less", &before, &[rewriting(&before)], &[0])
}

/// A root that becomes invalid loses its object name, and 1 is -1.
fn puts(kind: Kind) -> Vec<Case> {
    let mut cases = Vec::new();
    let (a, b) = (tight(kind, b'a'), tight(kind, b'b'));
    let bytes = tight_bytes(kind);
    for (valid, more) in [(false, bytes), (true, bytes - kind.width() + 1)] {
        let before = filled(kind, vec![a.clone()], LARGEST - more, valid);
        let put = putting(&before, &b);
        cases.extend(in_versions("put, just fits", &before, &[put], &[1]));
        let before = filled(kind, vec![a.clone()], LARGEST - more + 1, valid);
        let call = putting(&before, &b).call(2);
        let file = Arc::new(file(&before));
        cases.push(refused(kind, "put, too long", &file, call, 2));
    }
    cases
}

/// Names that share their beginning are short in version 4 alone.
fn from_version_4(kind: Kind) -> Vec<Case> {
    let name = |k: usize| [&[b'p'; 8000][..], format!("{k:03}").as_bytes()].concat();
    let entries: Vec<Entry> = (0..40).map(|k| entry(&name(k), 0)).collect();
    let of_length = |total: usize| Records {
        version: 4,
        ..filled(kind, entries.clone(), total, false)
    };
    let fits = of_length(LARGEST);
    let mut cases = in_versions("from version 4", &fits, &[rewriting(&fits)], &[1]);
    let over = of_length(LARGEST + 1);
    let change = [rewriting(&over)];
    cases.extend(in_versions("stays version 4", &over, &change, &[0]));
    let file = Arc::new(file(&over));
    for asked in [1, 2] {
        let call = change[0].call(asked);
        cases.push(refused(kind, "from version 4, too long", &file, call, 2));
    }
    cases
}

/// A long extension that is dropped, and a file that is too long itself.
fn others(kind: Kind) -> Vec<Case> {
    let (a, b) = (tight(kind, b'a'), tight(kind, b'b'));
    let around = 12 + tight_bytes(kind) + 8 + kind.width();
    let fill = Extension::Passed(*b"FILL", vec![0; LARGEST - around]);
    let dropped = records(kind, 2, vec![a.clone()], vec![fill]);
    let changes = [rewriting(&dropped), putting(&dropped, &b)];
    let mut cases = in_versions("dropped", &dropped, &changes, &[0, 1]);
    let long = filled(kind, vec![a.clone()], LARGEST + 1, false);
    let file = Arc::new(file(&long));
    for change in [rewriting(&long), removing(&long, &a.name, 0)] {
        cases.push(refused(kind, "a longer file", &file, change.call(5), 2));
    }
    cases
}
