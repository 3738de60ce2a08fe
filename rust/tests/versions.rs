//! The versions that may be asked for: the default, the lowest, and numbers that are none.

mod common;

use common::{accepted, regular, vectors, Records, KINDS};
use nerupazhil::raw::{WriteReply, VERSION_DEFAULT, VERSION_LOWEST};
use nerupazhil::{calls, walk, Fields, Index, Kind, Refusal, Version, WORKSPACE};

/// An output before a call, long enough for every stored file in any version.
const MARKS: &[u8] = &[0xee; 1 << 17];

/// The name of an entry that is put.
const NEW: &[u8] = b"m/new.txt";

/// What was written, or why not.
type Written = Result<Vec<u8>, Refusal>;

fn read(kind: Kind, file: &[u8]) -> Index<'_> {
    Index::read_kind(kind, file).unwrap()
}

fn version(kind: Kind, file: &[u8]) -> u32 {
    read(kind, file).summary().version
}

/// The name and stage of the first entry, or some others.
fn first(kind: Kind, file: &[u8]) -> (Vec<u8>, u32) {
    let index = Index::read_kind(kind, file);
    let entry = index
        .as_ref()
        .ok()
        .and_then(|i| i.entries().unwrap().next());
    entry.map_or((b"none".to_vec(), 0), |e| (e.name.to_vec(), e.fields.stage))
}

/// Makes a call. All but what it says to have written is as it was.
fn written(call: impl FnOnce(&mut [u8], &mut [u8]) -> WriteReply) -> Written {
    let (work, out) = (&mut [0; WORKSPACE], &mut MARKS.to_vec());
    let reply = call(work, out);
    assert_eq!(out[reply.length..], MARKS[reply.length..]);
    match reply.refusal {
        0 => Ok(out[..reply.length].to_vec()),
        number => Err(Refusal::new(number, reply.place)),
    }
}

/// What rewrite, a put and a remove write, by a number.
fn by_number(kind: Kind, file: &[u8], asked: u32) -> [Written; 3] {
    let (number, fields, (name, stage)) = (kind.number(), regular(kind), first(kind, file));
    [
        written(|work, out| calls::rewrite(number, file, work, out, asked)),
        written(|work, out| calls::put(number, file, work, out, asked, NEW, fields)),
        written(|work, out| calls::remove(number, file, work, out, asked, &name, stage)),
    ]
}

/// The same by a name.
fn by_name(kind: Kind, file: &[u8], version: Version) -> [Written; 3] {
    let (index, (name, stage)) = (read(kind, file), first(kind, file));
    [
        index.rewritten(version),
        index.with(NEW, &regular(kind), version),
        index.without(&name, stage, version),
    ]
}

/// Each name asks for its number.
#[test]
fn names_are_numbers() {
    for vector in accepted() {
        let (kind, file) = (vector.kind, &vector.file);
        for (name, number) in [
            (Version::default(), VERSION_DEFAULT),
            (Version::Lowest, VERSION_LOWEST),
            (Version::V2, 2),
            (Version::V3, 3),
            (Version::V4, 4),
        ] {
            let expected = by_name(kind, file, name);
            assert_eq!(by_number(kind, file, number), expected, "{}", vector.name);
        }
    }
}

#[test]
fn the_default_is_version_4() {
    assert_eq!(Version::default(), Version::V4);
    for vector in accepted() {
        let files = by_number(vector.kind, &vector.file, 0);
        assert!(files[0].is_ok() && files[1].is_ok(), "{}", vector.name);
        for file in files.iter().flatten() {
            assert_eq!(version(vector.kind, file), 4, "{}", vector.name);
        }
    }
}

/// An entry that needs the extended word is put, replaced and taken out again, whatever the file's own version is.
#[test]
fn the_lowest_is_2_or_3_by_what_the_result_needs() {
    for kind in KINDS {
        let plain = read(kind, kind.empty()).with(b"a", &regular(kind), Version::V2);
        let plain = plain.unwrap();
        for (skip_worktree, intent_to_add) in [(true, false), (false, true), (true, true)] {
            let marked = Fields {
                skip_worktree,
                intent_to_add,
                ..regular(kind)
            };
            for own in [Version::V2, Version::V3, Version::V4] {
                let before = read(kind, &plain).rewritten(own).unwrap();
                lowest_with_and_without(kind, &plain, &before, &marked);
            }
        }
    }
}

/// `before` is `plain` in some version.
fn lowest_with_and_without(kind: Kind, plain: &[u8], before: &[u8], marked: &Fields) {
    let index = read(kind, before);
    assert_eq!(index.rewritten(Version::Lowest).as_deref(), Ok(plain));
    let refused = index.with(NEW, marked, Version::V2);
    assert_eq!(refused, Err(Refusal::new(21, 0)));
    let extended = index.with(NEW, marked, Version::Lowest).unwrap();
    let other = index.with(NEW, &regular(kind), Version::Lowest).unwrap();
    let versions = [plain, &extended, &other].map(|file| version(kind, file));
    assert_eq!(versions, [2, 3, 2]);
    for own in [Version::V3, Version::V4] {
        let file = read(kind, &extended).rewritten(own).unwrap();
        let index = read(kind, &file);
        assert_eq!(index.rewritten(Version::Lowest).as_ref(), Ok(&extended));
        let removed = index.without(NEW, 0, Version::Lowest);
        assert_eq!(removed.as_deref(), Ok(plain));
        let replaced = index.with(NEW, &regular(kind), Version::Lowest);
        assert_eq!(replaced.as_ref(), Ok(&other));
        let rest = index.without(b"a", 0, Version::Lowest).unwrap();
        assert_eq!(version(kind, &rest), 3);
    }
}

/// A walk takes what is written in the lowest version, and nothing that is written by the default. Both have the same
/// records, and the owner shows the entries of both.
#[test]
fn a_walk_needs_the_lowest() {
    let work = &mut [0; WORKSPACE];
    for vector in accepted() {
        let (kind, index) = (vector.kind, read(vector.kind, &vector.file));
        let new = index.rewritten(Version::default()).unwrap();
        let old = index.rewritten(Version::Lowest).unwrap();
        assert_eq!(walk(kind, &new, work).err(), Some(Refusal::new(4, 0)));
        let steps = walk(kind, &old, work).unwrap();
        assert!(read(kind, &new).entries().unwrap().eq(steps.clone()));
        assert!(read(kind, &old).entries().unwrap().eq(steps));
        assert_eq!(Records::of(kind, &new), Records::of(kind, &old));
    }
}

/// 4 at place 0, after all that is wrong with the file.
#[test]
fn numbers_above_4_are_refused() {
    for vector in vectors() {
        let refusal = vector.expected.err().unwrap_or(Refusal::new(4, 0));
        for asked in [5, 256, 256 + 4, u32::MAX] {
            for answer in by_number(vector.kind, &vector.file, asked) {
                assert_eq!(answer, Err(refusal), "{}, {asked}", vector.name);
            }
        }
    }
}
