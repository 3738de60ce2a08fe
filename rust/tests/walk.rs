//! A walk as an iterator.

mod common;

use std::iter::FusedIterator;

use common::{laid_out, number, stored};
use nerupazhil::raw::{StepReply, SHA1};
use nerupazhil::{calls, walk, Kind, ObjectName, Walk, EMPTY, WORKSPACE};

fn start(file: &[u8]) -> Walk<'_> {
    walk(Kind::Sha1, file, &mut [0; WORKSPACE]).unwrap()
}

#[test]
fn the_size_is_exact_at_each_step() {
    let file = stored("real/v2-committed");
    let mut walk = start(&file);
    for left in (0..20).rev() {
        assert!(walk.next().is_some());
        assert_eq!((walk.len(), walk.size_hint()), (left, (left, Some(left))));
    }
    assert!(walk.next().is_none());
    assert_eq!(walk.len(), 0);
}

#[test]
fn the_end_stays_the_end() {
    fn fused(walk: impl FusedIterator + ExactSizeIterator) -> usize {
        walk.len()
    }
    let mut walk = start(&EMPTY);
    assert!((0..3).all(|_| walk.next().is_none()));
    assert_eq!(fused(walk), 0);
}

/// A clone goes on from the same entry, by itself.
#[test]
fn a_clone_goes_its_own_way() {
    let file = stored("real/v2-extended");
    let mut walk = start(&file);
    let first = walk.next();
    let rest: Vec<_> = walk.clone().collect();
    assert!(start(&file).skip(1).eq(rest.iter().copied()));
    assert_eq!(start(&file).next(), first);
    assert_eq!(walk.count(), rest.len());
}

/// Steps of either kind, whose entries have other lengths: 72 bytes with SHA-1 names, 88 with SHA-256 names.
#[test]
fn a_walk_goes_over_both_kinds() {
    let names = [&b"saw/cut"[..], b"saw/old"].map(<[u8]>::to_vec);
    for (kind, second) in [(Kind::Sha1, 12 + 72), (Kind::Sha256, 12 + 88)] {
        let file = laid_out(kind, 2, &names);
        let mut walk = walk(kind, &file, &mut [0; WORKSPACE]).unwrap();
        for (name, at) in names.iter().zip([second, file.len() - kind.width()]) {
            let entry = walk.next().unwrap();
            assert_eq!(
                (entry.name, entry.fields.object),
                (&name[..], ObjectName::zero(kind))
            );
            assert!(format!("{walk:?}").starts_with(&format!("Walk {{ at: {at},")));
        }
        assert!(walk.next().is_none());
    }
}

/// The workspace is free again, and names outlive the walk.
#[test]
fn names_last_as_long_as_the_file() {
    let file = stored("real/v2-committed");
    let names: Vec<&[u8]> = start(&file).map(|entry| entry.name).collect();
    assert_eq!(names[..3], [&b"a-b"[..], b"a.b", b"a/b"]);
    assert!(names.windows(2).all(|pair| pair[0] < pair[1]));
}

#[test]
fn version_4_is_refused() {
    let file = stored("real/v4-committed");
    assert_eq!(number(walk(Kind::Sha1, &file, &mut [0; WORKSPACE])), 4);
}

/// A step where no entry remains, or where none is, has its number alone.
#[test]
fn a_refused_step_shows_no_place() {
    let file = stored("real/v2-committed");
    let refused = StepReply {
        refusal: 18,
        ..StepReply::default()
    };
    for (at, left) in [(12, 0), (file.len(), 7), (usize::MAX, u32::MAX)] {
        assert_eq!(calls::walk_next(SHA1, &file, at, left), refused);
    }
    let first = calls::walk_next(SHA1, &file, 12, 20);
    assert_eq!((first.refusal, first.at, first.left), (0, 84, 19));
}

/// What is shown of a walk is short, however long the file.
#[test]
fn debug_does_not_show_the_file() {
    assert_eq!(
        format!("{:?}", start(&EMPTY)),
        "Walk { at: 12, left: 0, .. }"
    );
}
