//! Files whose checksum was left out: they are taken, only check says so, and what is written has a checksum.

mod common;

use common::{accepted, number, regular, vectors, with_checksum, with_zeros, Records, KINDS};
use nerupazhil::{
    calls, check, entry, put, remove, rewrite, tree_node, undo_record, walk, Checksum, Index, Kind,
    Refusal, Summary, Version, WORKSPACE,
};

const VERSIONS: [Version; 4] = [Version::Lowest, Version::V2, Version::V3, Version::V4];

/// All that check answers but for the checksum is what it answers of the file with its checksum.
#[test]
fn check_says_that_it_was_left_out() {
    let work = &mut [0; WORKSPACE];
    for vector in accepted() {
        let kind = vector.kind;
        let signed = with_checksum(kind, body(kind, &vector.file).to_vec());
        let summary = check(kind, &signed, work).unwrap();
        assert_eq!(summary.checksum, Checksum::Matches, "{}", vector.name);
        let left_out = Ok(Summary {
            checksum: Checksum::LeftOut,
            ..summary
        });
        let file = with_zeros(kind, &vector.file);
        assert_eq!(check(kind, &file, work), left_out, "{}", vector.name);
        assert_eq!(Index::read_kind(kind, &file).map(|i| i.summary()), left_out);
    }
}

/// The file less its checksum.
fn body(kind: Kind, file: &[u8]) -> &[u8] {
    &file[..file.len() - kind.width()]
}

#[test]
fn the_empty_index_without_a_checksum() {
    for kind in KINDS {
        let file = with_zeros(kind, kind.empty());
        assert_eq!(file[12..], vec![0; kind.width()]);
        let index = Index::read_kind(kind, &file).unwrap();
        let summary = index.summary();
        assert_eq!((summary.version, summary.entries), (2, 0));
        assert_eq!(summary.checksum, Checksum::LeftOut);
        assert_eq!(
            index.rewritten(Version::Lowest).as_deref(),
            Ok(kind.empty())
        );
    }
}

/// The records are the same, by their numbers, by a walk and by the owner.
#[test]
fn the_same_records_are_shown() {
    let work = &mut [0; WORKSPACE];
    for vector in accepted() {
        let (kind, file) = (vector.kind, with_zeros(vector.kind, &vector.file));
        let expected = Records::of(kind, &vector.file);
        assert_eq!(Records::of(kind, &file), expected, "{}", vector.name);
        let index = Index::read_kind(kind, &file).unwrap();
        let shown = index.entries().unwrap();
        let names = shown.map(|entry| (entry.name.to_vec(), entry.fields));
        assert!(names.eq(expected.entries));
        let steps = walk(kind, &file, work).map(Iterator::count);
        assert_eq!(steps, walk(kind, &vector.file, work).map(Iterator::count));
    }
}

/// Rewrite, put and remove write what they write for the file with its checksum, and that has one.
#[test]
fn what_is_written_has_a_checksum() {
    for vector in accepted() {
        let (kind, file) = (vector.kind, with_zeros(vector.kind, &vector.file));
        let left_out = Index::read_kind(kind, &file).unwrap();
        let index = Index::read_kind(kind, &vector.file).unwrap();
        for version in VERSIONS {
            let written = index.rewritten(version);
            assert_eq!(left_out.rewritten(version), written, "{}", vector.name);
            let put = |index: &Index<'_>| index.with(b"newer", &regular(kind), version);
            assert_eq!(put(&left_out), put(&index), "{}", vector.name);
            for new in [written, put(&index)].into_iter().flatten() {
                let summary = Index::read_kind(kind, &new).unwrap().summary();
                assert_eq!(summary.checksum, Checksum::Matches);
                assert_eq!(with_checksum(kind, body(kind, &new).to_vec()), new);
            }
        }
        if let Some(first) = index.entries().unwrap().next() {
            let (name, stage) = (first.name, first.fields.stage);
            let removed = |index: &Index<'_>| index.without(name, stage, Version::Lowest);
            assert_eq!(removed(&left_out), removed(&index));
        }
    }
}

/// Each byte of the zeros counts: a wrong checksum is refused by every call, at its first byte.
#[test]
fn zeros_but_for_one_byte_are_wrong() {
    let (work, out) = (&mut [0; WORKSPACE], &mut [0xee; 256]);
    for kind in KINDS {
        for at in 12..12 + kind.width() {
            let mut file = with_zeros(kind, kind.empty());
            file[at] = 1;
            let refusal = Some(Refusal::new(5, 12));
            let (version, fields) = (Version::Lowest, regular(kind));
            assert_eq!(check(kind, &file, work).err(), refusal);
            assert_eq!(entry(kind, &file, work, 0).err(), refusal);
            assert_eq!(tree_node(kind, &file, work, 0).err(), refusal);
            assert_eq!(undo_record(kind, &file, work, 0).err(), refusal);
            assert_eq!(walk(kind, &file, work).err(), refusal);
            assert_eq!(rewrite(kind, &file, work, out, version).err(), refusal);
            let put = put(kind, &file, work, out, version, b"a", &fields);
            assert_eq!(put.err(), refusal);
            let removed = remove(kind, &file, work, out, version, b"a", 0);
            assert_eq!(removed.err(), refusal);
            assert_eq!(Index::read_kind(kind, &file).err(), refusal);
        }
    }
    assert_eq!(*out, [0xee; 256]);
}

/// Faults after the checksum in the order of refusals are told as they are with a right one.
#[test]
fn other_faults_are_refused_as_before() {
    let (work, mut tried) = (&mut [0; WORKSPACE], 0);
    for vector in vectors() {
        if matches!(vector.expected, Err(refusal) if refusal.number() > 5) {
            let file = with_zeros(vector.kind, &vector.file);
            assert_eq!(check(vector.kind, &file, work), vector.expected);
            tried += 1;
        }
    }
    assert!(tried > 100);
}

/// A refusal has no other numbers, also where the checksum was left out.
#[test]
fn a_refused_file_says_nothing_of_its_checksum() {
    let work = &mut [0; WORKSPACE];
    for kind in KINDS {
        let mut file = with_zeros(kind, kind.empty());
        file[11] = 1;
        let reply = calls::check(kind.number(), &file, work);
        assert_eq!((reply.refusal, reply.place), (6, 12));
        assert!(!reply.checksum_left_out);
        assert_eq!(number(entry(kind, &file, work, 0)), 6);
    }
}
