//! The owner: what it allocates, and version 4.

mod common;

use std::panic::{RefUnwindSafe, UnwindSafe};
use std::thread;

use common::{accepted, laid_out, number, regular, stored, Records, KINDS};
use nerupazhil::{
    check, put, rewrite, Entry, Index, Kind, ObjectName, Refusal, Summary, Version, Walk, EMPTY,
    MAX_FILE, WORKSPACE,
};
use Kind::Sha1;

/// A file of version 4 with so many names that share their first bytes.
fn shared_beginning(kind: Kind, entries: usize, length: usize) -> Vec<u8> {
    let name = |k| [&vec![b'n'; length][..], format!("{k:05}").as_bytes()].concat();
    laid_out(kind, 4, &(0..entries).map(name).collect::<Vec<_>>())
}

/// The owner answers what the calls answer with buffers that are large enough.
#[test]
fn it_answers_what_the_calls_answer() {
    let (work, out) = (&mut [0; WORKSPACE], &mut vec![0; 1 << 17]);
    for vector in accepted() {
        let (kind, file) = (vector.kind, &vector.file);
        let index = Index::read_kind(kind, file).unwrap();
        assert_eq!(
            (Ok(index.summary()), index.kind()),
            (check(kind, file, work), kind)
        );
        assert_eq!(index.file(), &file[..]);
        for version in [Version::Lowest, Version::V2, Version::V3, Version::V4] {
            let expected = rewrite(kind, file, work, out, version).map(|file| file.to_vec());
            assert_eq!(index.rewritten(version), expected);
            let fields = regular(kind);
            let expected = put(kind, file, work, out, version, b"m", &fields);
            assert_eq!(
                index.with(b"m", &fields, version),
                expected.map(|file| file.to_vec())
            );
        }
        let records = Records::of(kind, file);
        for (k, node) in (0..).zip(records.nodes.unwrap_or_default()) {
            assert_eq!(index.tree_node(k).unwrap().tree, node.3);
        }
        for (k, record) in (0..).zip(records.undo.unwrap_or_default()) {
            assert_eq!(index.undo_record(k).unwrap().stages, record.1);
        }
    }
}

/// 4 stays 4; the others are written as low as they can be.
#[test]
fn the_version_is_kept() {
    for (name, version) in [
        ("real/v2-extended", 3),
        ("real/v4-extended", 4),
        ("real/empty", 2),
    ] {
        let file = stored(name);
        let index = Index::read(&file).unwrap();
        let new = index.rewritten(index.summary().version_kept()).unwrap();
        assert_eq!(Index::read(&new).unwrap().summary().version, version);
    }
}

/// Without is the inverse of with, but for the cache tree; what is not there can't be taken out.
#[test]
fn with_and_without() {
    for kind in KINDS {
        let (version, fields) = (Version::Lowest, regular(kind));
        let index = Index::read_kind(kind, kind.empty()).unwrap();
        let one = index.with(b"a/b", &fields, version).unwrap();
        let one = Index::read_kind(kind, &one).unwrap();
        assert_eq!(one.without(b"a/b", 0, version), Ok(kind.empty().to_vec()));
        assert_eq!(number(one.without(b"a/b", 1, version)), 18);
        assert_eq!(number(index.with(b"a//b", &fields, version)), 9);
    }
}

/// Names of version 4 that take forty times the bytes in version 2: the output grows until they fit.
#[test]
fn a_result_of_many_times_the_length_fits() {
    for kind in KINDS {
        let file = shared_beginning(kind, 100, 4000);
        let index = Index::read_kind(kind, &file).unwrap();
        let new = index.rewritten(Version::V2).unwrap();
        assert!(new.len() > 30 * file.len());
        assert_eq!(index.entries().unwrap().len(), 100);
        let again = Index::read_kind(kind, &new).unwrap();
        assert!(index.entries().unwrap().eq(again.entries().unwrap()));
    }
}

/// A file of version 4 that would be longer than the limit in version 2: entries are shown one by one.
#[test]
fn names_too_long_for_a_walk() {
    for kind in KINDS {
        let file = shared_beginning(kind, 2100, 8000);
        let index = Index::read_kind(kind, &file).unwrap();
        assert_eq!(index.entries().err(), Some(Refusal::new(2, 0)));
        assert_eq!(index.rewritten(Version::V3).err(), Some(Refusal::new(2, 0)));
        let mut work = [0; WORKSPACE];
        let last = index.entry(&mut work, 2099).unwrap();
        assert_eq!(last.name[8000..], *b"02099");
        assert_eq!(index.rewritten(Version::V4), Ok(file.clone()));
    }
}

/// A put of a name of 8,192 bytes fits, whatever the file.
#[test]
fn a_long_name_fits() {
    let name = vec![b'n'; 8192];
    for kind in KINDS {
        for version in [Version::Lowest, Version::V3, Version::V4] {
            let index = Index::read_kind(kind, kind.empty()).unwrap();
            let file = index.with(&name, &regular(kind), version).unwrap();
            let entries = Index::read_kind(kind, &file).unwrap();
            assert_eq!(entries.entries().unwrap().next().unwrap().name, name);
        }
    }
}

/// A file at the limit: one more entry would be one too many.
#[test]
fn a_file_at_the_limit() {
    for kind in KINDS {
        let file = full(kind);
        let index = Index::read_kind(kind, &file).unwrap();
        assert!(MAX_FILE - index.file().len() < 8);
        assert_eq!(index.rewritten(Version::V2).as_deref(), Ok(&file[..]));
        assert_eq!(number(index.with(b"a", &regular(kind), Version::V2)), 2);
        assert!(index.with(b"a", &regular(kind), Version::V4).is_ok());
    }
}

/// A file of version 2 of 16 MiB, or up to 7 bytes less: 2,100 entries, some of 7,992 bytes and the others of 7,984.
fn full(kind: Kind) -> Vec<u8> {
    let longer = (MAX_FILE - 12 - kind.width() - 2100 * 7984) / 8;
    let name = |k| {
        let mut name = format!("{k:05}").into_bytes();
        let length = if k < longer { 7992 } else { 7984 };
        name.resize(length - 46 - kind.width(), b'n');
        name
    };
    laid_out(kind, 2, &(0..2100).map(name).collect::<Vec<_>>())
}

/// All types can be sent to other threads and shared with them.
#[test]
fn types_are_send_and_sync() {
    fn plain<T: Send + Sync + Unpin + UnwindSafe + RefUnwindSafe>() {}
    plain::<Index<'_>>();
    plain::<Walk<'_>>();
    plain::<Entry<'_>>();
    plain::<Summary>();
    plain::<Refusal>();
    plain::<ObjectName>();
}

#[test]
fn one_index_serves_several_threads() {
    let file = stored("real/v4-committed");
    let index = Index::read(&file).unwrap();
    let count = || {
        index
            .entries()
            .unwrap()
            .filter(|entry| entry.fields.stage == 0)
            .count()
    };
    thread::scope(|scope| {
        let threads: Vec<_> = (0..4).map(|_| scope.spawn(count)).collect();
        assert!(threads
            .into_iter()
            .all(|thread| thread.join().unwrap() == 20));
    });
}

/// A cache tree of 127 levels below the root, read and written with 128 KiB of stack.
#[test]
fn little_stack_is_enough() {
    let edit = || {
        let file = stored("real/deep-127");
        let index = Index::read(&file)?;
        let deepest = index.tree_node(127)?;
        let new = index.with(b"new", &regular(Sha1), Version::V4)?;
        Ok((deepest.level, Index::read(&new)?.summary().entries))
    };
    let thread = thread::Builder::new().stack_size(128 << 10).spawn(edit);
    let answer: Result<_, Refusal> = thread.unwrap().join().unwrap();
    assert_eq!(answer, Ok((128, 4)));
}

/// What is shown of an index is short, however long the file.
#[test]
fn debug_does_not_show_the_file() {
    let index = Index::read(&EMPTY).unwrap();
    let shown = format!("{index:?}");
    assert!(
        shown.starts_with("Index { kind: Sha1, summary: Summary { version: 2,")
            && shown.len() < 200
    );
}
