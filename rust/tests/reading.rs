//! The calls that read, on the stored vectors.

mod common;

use common::{accepted, number, object, stored, vectors, with_checksum, Records, KINDS};
use nerupazhil::{
    calls, check, entry, mode, tree_node, undo_record, walk, Index, Kind, Stage, WORKSPACE,
};
use Kind::{Sha1, Sha256};

#[test]
fn check_answers_what_is_stored() {
    let work = &mut [0; WORKSPACE];
    for vector in vectors() {
        assert_eq!(
            check(vector.kind, &vector.file, work),
            vector.expected,
            "{}",
            vector.name
        );
    }
}

/// Every call gives the refusals of the file.
#[test]
fn every_call_refuses_a_damaged_file() {
    let work = &mut [0; WORKSPACE];
    for vector in vectors() {
        let (kind, file, expected) = (vector.kind, &vector.file, vector.expected.err());
        if expected.is_some() {
            assert_eq!(entry(kind, file, work, 0).err(), expected);
            assert_eq!(tree_node(kind, file, work, 0).err(), expected);
            assert_eq!(undo_record(kind, file, work, 0).err(), expected);
            assert_eq!(walk(kind, file, work).err(), expected);
            assert_eq!(Index::read_kind(kind, file).err(), expected);
        }
    }
}

#[test]
fn there_is_nothing_past_the_last() {
    let work = &mut [0; WORKSPACE];
    for vector in accepted() {
        let (kind, file, summary) = (vector.kind, &vector.file, vector.expected.unwrap());
        let (nodes, records) = (summary.nodes.unwrap_or(0), summary.records.unwrap_or(0));
        assert_eq!(number(entry(kind, file, work, summary.entries)), 18);
        assert_eq!(number(tree_node(kind, file, work, nodes)), 18);
        assert_eq!(number(undo_record(kind, file, work, records)), 18);
        assert_eq!(number(entry(kind, file, work, u32::MAX)), 18);
    }
}

/// Names are parts of the file, but for entries of version 4, whose name stands first in the workspace.
#[test]
fn names_are_parts_of_the_buffers() {
    let work = &mut [0; WORKSPACE];
    for (name, in_file) in [("real/v2-committed", true), ("real/v4-committed", false)] {
        let file = stored(name);
        let start = work.as_ptr();
        let shown = entry(Sha1, &file, work, 3).unwrap();
        assert_eq!(shown.name, b"a/c");
        assert_eq!(file.as_ptr_range().contains(&shown.name.as_ptr()), in_file);
        assert_eq!(shown.name.as_ptr() == start, !in_file);
        let node = tree_node(Sha1, &file, work, 1).unwrap();
        assert!(file.as_ptr_range().contains(&node.name.as_ptr()));
    }
}

/// Only the first 8,192 bytes of a workspace are used, and they are zero after a call but for a name.
#[test]
fn the_workspace_is_cleared() {
    let work = &mut [0xff; WORKSPACE + 10];
    for vector in vectors() {
        work[..WORKSPACE].fill(0xaa);
        let _ = check(vector.kind, &vector.file, work);
        assert!(work[..WORKSPACE].iter().all(|&byte| byte == 0));
        assert!(work[WORKSPACE..].iter().all(|&byte| byte == 0xff));
    }
    let file = stored("real/v4-committed");
    let length = entry(Sha1, &file, work, 0).unwrap().name.len();
    assert!(work[length..WORKSPACE].iter().all(|&byte| byte == 0));
}

/// The nodes of a tree of which Git knows a part: the root is level 1, its subtrees 2.
#[test]
fn tree_nodes_are_shown() {
    for name in ["real/v2-part-invalid", "real/v4-part-invalid"] {
        let nodes = Records::of(Sha1, &stored(name)).nodes.unwrap();
        let (root, level, subtrees, tree) = &nodes[0];
        assert_eq!((&root[..], *level, *tree), (&b""[..], 1, None));
        let below = nodes.iter().filter(|node| node.1 == 2).count();
        assert_eq!(below, *subtrees as usize);
        assert!(nodes.iter().any(|node| node.3.is_some()));
    }
}

/// The tree object of the root of an index with no entries is that of the empty tree.
#[test]
fn a_valid_node_has_its_object() {
    let file = stored("real/empty-tree");
    let root = tree_node(Sha1, &file, &mut [0; WORKSPACE], 0).unwrap();
    let tree = root.tree.unwrap();
    assert_eq!((tree.entries, tree.object), (0, Sha1.hash(b"tree 0\0")));
}

/// The root's count is that of all entries, those of its subtrees are less.
#[test]
fn a_valid_node_has_its_count() {
    let nodes = Records::of(Sha1, &stored("real/v2-committed"))
        .nodes
        .unwrap();
    let counts: Vec<_> = nodes.iter().map(|node| node.3.unwrap().entries).collect();
    assert_eq!(counts[0], 20);
    assert!(counts[1..].iter().all(|&count| 0 < count && count < 20));
}

/// A record without its second stage, and one with three stages. Their text has 21 and 25 bytes.
fn with_records(kind: Kind) -> Vec<u8> {
    let object = |byte| object(kind, byte);
    let length = (46 + 5 * kind.width()) as u32;
    let mut file = kind.empty()[..12].to_vec();
    file.extend([&b"REUC"[..], &length.to_be_bytes()].concat());
    file.extend(b"plan\x00100644\x000\x00100644\0");
    file.extend(
        [object(0x11), object(0x33)]
            .map(|name| name.as_bytes().to_vec())
            .concat(),
    );
    file.extend(b"saw\x00100644\x00100755\x00120000\0");
    file.extend(
        [0x44, 0x55, 0x66]
            .map(|byte| object(byte).as_bytes().to_vec())
            .concat(),
    );
    with_checksum(kind, file)
}

#[test]
fn resolve_undo_records_are_shown() {
    let work = &mut [0; WORKSPACE];
    for kind in KINDS {
        let file = with_records(kind);
        let stage = |mode, byte| {
            let object = object(kind, byte);
            Some(Stage { mode, object })
        };
        let record = undo_record(kind, &file, work, 0).unwrap();
        let stages = [stage(mode::REGULAR, 0x11), None, stage(mode::REGULAR, 0x33)];
        assert_eq!((record.path, record.stages), (&b"plan"[..], stages));
        let record = undo_record(kind, &file, work, 1).unwrap();
        let stages = [
            stage(mode::REGULAR, 0x44),
            stage(mode::EXECUTABLE, 0x55),
            stage(mode::SYMLINK, 0x66),
        ];
        assert_eq!((record.path, record.stages), (&b"saw"[..], stages));
    }
}

/// Entries by their numbers, by a walk and by the owner are the same.
#[test]
fn all_ways_show_the_same_entries() {
    let work = &mut [0; WORKSPACE];
    for vector in accepted() {
        let by_number = Records::of(vector.kind, &vector.file).entries;
        let index = Index::read_kind(vector.kind, &vector.file).unwrap();
        let by_owner = index.entries().unwrap();
        let owned = |shown: nerupazhil::Entry<'_>| (shown.name.to_vec(), shown.fields);
        assert!(by_owner.map(owned).eq(by_number.iter().cloned()));
        match walk(vector.kind, &vector.file, work) {
            Ok(walk) => assert!(walk.map(owned).eq(by_number)),
            Err(refusal) => assert_eq!((refusal.number(), index.summary().version), (4, 4)),
        }
    }
}

/// Where the owner's walk starts, and how many entries it shows, is what the library answers.
#[test]
fn a_walk_starts_after_the_header() {
    for vector in accepted() {
        let summary = vector.expected.unwrap();
        let start = calls::walk_start(vector.kind.number(), &vector.file, &mut [0; WORKSPACE]);
        if summary.version < 4 {
            assert_eq!((start.at, start.left), (12, summary.entries));
        }
    }
}

/// From FIPS 180-4's examples.
#[test]
fn hashes_of_abc() {
    let digests = [
        (Sha1, "a9993e364706816aba3e25717850c26c9cd0d89d"),
        (
            Sha256,
            "ba7816bf8f01cfea414140de5dae2223b00361a396177a9cb410ff61f20015ad",
        ),
    ];
    for (kind, digest) in digests {
        assert_eq!(kind.hash(b"abc").to_string(), digest);
    }
}
