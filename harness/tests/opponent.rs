//! The second library in plain Rust: stored files, the cases of document 01 for each kind, and a first comparison with the
//! proved library.

use std::fs;

use harness::index_file::{list_entry, node, object, File};
use harness::kind::Kind;
use harness::listing::{self, refused};
use harness::opponent;
use harness::replies::{Fields, Name, StepReply, WORKSPACE};
use harness::vectors::{self, words};

mod cases;
mod comparison;

const VECTORS: &str = concat!(env!("CARGO_MANIFEST_DIR"), "/../tests/vectors");

/// A workspace with more bytes than it needs, none of them zero.
fn workspace() -> Vec<u8> {
    vec![0xa5; WORKSPACE + 64]
}

/// The file with one more extension.
fn extend(kind: Kind, file: &[u8], signature: &[u8; 4], data: &[u8]) -> Vec<u8> {
    let size = (data.len() as u32).to_be_bytes();
    let body = &file[..file.len() - kind.width()];
    kind.signed([body, signature, &size, data].concat())
}

/// What a call that writes answers with a large output: the bytes or the refusal.
fn put(kind: Kind, file: &[u8], asked: u32, name: &[u8], fields: Fields) -> Result<Vec<u8>, u32> {
    let mut out = vec![0xa5; file.len() + name.len() + 200];
    let number = kind.number();
    let reply = opponent::put(
        number,
        file,
        &mut workspace(),
        &mut out,
        asked,
        name,
        fields,
    );
    written(out, reply.refusal, reply.length)
}

fn remove(kind: Kind, file: &[u8], asked: u32, name: &[u8], stage: u32) -> Result<Vec<u8>, u32> {
    let mut out = vec![0xa5; file.len() + 200];
    let number = kind.number();
    let reply = opponent::remove(number, file, &mut workspace(), &mut out, asked, name, stage);
    written(out, reply.refusal, reply.length)
}

fn rewrite(kind: Kind, file: &[u8], asked: u32) -> Result<Vec<u8>, u32> {
    let mut out = vec![0xa5; 2 * file.len() + 200];
    let reply = opponent::rewrite(kind.number(), file, &mut workspace(), &mut out, asked);
    written(out, reply.refusal, reply.length)
}

fn written(mut out: Vec<u8>, refusal: u32, length: usize) -> Result<Vec<u8>, u32> {
    assert!(out[length..].iter().all(|byte| *byte == 0xa5));
    out.truncate(length);
    match refusal {
        0 => Ok(out),
        _ => Err(refusal),
    }
}

/// An index of these entries in a version, without an extension.
fn index(kind: Kind, version: u32, names: &[&[u8]]) -> Vec<u8> {
    let empty = File::new(kind, version).finish();
    names.iter().fold(empty, |file, name| {
        put(kind, &file, version, name, list_entry(kind)).unwrap()
    })
}

fn check(kind: Kind, file: &[u8]) -> String {
    words(&opponent::check(kind.number(), file, &mut workspace()))
}

/// The bytes of a shown name.
fn shown<'a>(name: Name, file: &'a [u8], work: &'a [u8]) -> &'a [u8] {
    let buffer = if name.buffer == 2 { work } else { file };
    &buffer[name.offset..name.offset + name.length]
}

/// The fields and the name of an entry.
fn entry(kind: Kind, file: &[u8], k: u32) -> (Fields, Vec<u8>) {
    let mut work = workspace();
    let reply = opponent::entry(kind.number(), file, &mut work, k);
    assert_eq!(reply.refusal, 0);
    (reply.fields, shown(reply.name, file, &work).to_vec())
}

/// The names of all entries.
fn names(kind: Kind, file: &[u8]) -> Vec<Vec<u8>> {
    let count = opponent::check(kind.number(), file, &mut workspace()).entries;
    (0..count).map(|k| entry(kind, file, k).1).collect()
}

/// What the listing program would print for a file.
fn listing(kind: Kind, file: &[u8]) -> String {
    let checked = opponent::check(kind.number(), file, &mut workspace());
    match checked.refusal {
        0 => listing::listing(kind, &checked, |k| entry(kind, file, k)),
        _ => refused(&checked),
    }
}

#[test]
fn stored_files_are_answered_as_stored() {
    for (kind, other) in [(Kind::Sha1, Kind::Sha256), (Kind::Sha256, Kind::Sha1)] {
        for vector in vectors::all(kind) {
            let (name, file) = (vector.name, vector.file);
            assert_eq!(check(kind, &file), vector.expected, "{name}");
            let otherwise = check(other, &file);
            assert!(otherwise.starts_with("refused"), "{name}: {otherwise}");
        }
    }
}

#[test]
fn stored_files_are_listed_as_stored() {
    let table = fs::read_to_string(format!("{VECTORS}/expected.tsv")).unwrap();
    let real = table.lines().filter_map(|row| row.split_once(".index"));
    for (name, _) in real.filter(|(name, _)| name.starts_with("real/")) {
        let file = fs::read(format!("{VECTORS}/{name}.index")).unwrap();
        let expected = fs::read_to_string(format!("{VECTORS}/{name}.list")).unwrap();
        assert_eq!(listing(Kind::Sha1, &file), expected, "{name}");
    }
}

#[test]
fn single_rules_are_kept() {
    for kind in Kind::ALL {
        for (file, answer) in cases::all(kind) {
            let given = check(kind, &file);
            let name = kind.name();
            assert!(
                given.starts_with(&answer),
                "{name}: {given}, not {answer}: {file:02x?}"
            );
        }
    }
}

/// The example of document 01, and the same with SHA-256 names.
#[test]
fn the_listing_of_document_01() {
    for (kind, length) in [(Kind::Sha1, 168), (Kind::Sha256, 204)] {
        let a = Fields {
            object: kind.object_of(0x11),
            ..list_entry(kind)
        };
        let c = Fields {
            mode: 0o100755,
            object: kind.object_of(0x22),
            ..list_entry(kind)
        };
        let file = put(kind, &index(kind, 2, &[]), 2, b"b/c", c).unwrap();
        let file = put(kind, &file, 2, b"a", a).unwrap();
        assert_eq!(file.len(), length);
        let [ones, twos] = ["11", "22"].map(|digits| digits.repeat(kind.width()));
        let expected = format!(
            "version 2 entries 2\n100644 {ones} 0\ta\n100755 {twos} 0\tb/c\n\
            cache tree none\nresolve-undo none\n"
        );
        assert_eq!(listing(kind, &file), expected);
        let mut wrong = file.clone();
        wrong[length - 1] ^= 1;
        let place = length - kind.width();
        assert_eq!(listing(kind, &wrong), format!("refused 5 at {place}\n"));
    }
}

/// Zeros in place of the checksum: check and the first line of the listing say so.
#[test]
fn a_checksum_that_is_left_out() {
    for kind in Kind::ALL {
        for version in 2..=4 {
            let file = index(kind, version, &[b"a", b"b/c"]);
            let zeros = kind.left_out(kind.body(&file));
            let expected = check(kind, &file) + " checksum left out";
            assert_eq!(check(kind, &zeros), expected);
            let lines = listing(kind, &file);
            let first = format!("version {version} entries 2");
            let expected = format!("{first} checksum left out{}", &lines[first.len()..]);
            assert_eq!(listing(kind, &zeros), expected);
            let fields = list_entry(kind);
            for asked in 0..=4 {
                assert_eq!(rewrite(kind, &zeros, asked), rewrite(kind, &file, asked));
                let put = |file: &[u8]| put(kind, file, asked, b"c", fields);
                assert_eq!(put(&zeros), put(&file));
            }
        }
        let empty = kind.left_out(b"DIRC\0\0\0\x02\0\0\0\0");
        let expected =
            "accepted version 2 entries 0 end 12 nodes absent records absent checksum left out";
        assert_eq!(check(kind, &empty), expected);
        assert_eq!(check(kind, &empty[1..]), "refused 1 at 0");
    }
}

/// What else is wrong with a file is told as with a checksum.
#[test]
fn single_rules_are_kept_without_a_checksum() {
    for kind in Kind::ALL {
        for (file, answer) in cases::all(kind) {
            let zeros = kind.left_out(kind.body(&file));
            let given = check(kind, &zeros);
            let accepted = given.ends_with(" checksum left out");
            assert!(given.starts_with(&answer), "{given}, not {answer}");
            assert_eq!(accepted, given.starts_with("accepted"), "{given}");
        }
    }
}

#[test]
fn an_empty_index() {
    for (kind, length) in [(Kind::Sha1, 32), (Kind::Sha256, 44)] {
        let file = index(kind, 2, &[]);
        assert_eq!(file.len(), length);
        let expected = "accepted version 2 entries 0 end 12 nodes absent records absent";
        assert_eq!(check(kind, &file), expected);
        assert_eq!(check(kind, &file[..length - 1]), "refused 1 at 0");
    }
}

/// The cases of documents 01 and 02: the length of a name, and that of its entry without and with the extended word.
#[test]
fn lengths_of_entries() {
    let length = |kind: Kind, asked, fields, name: usize| {
        let empty = index(kind, 2, &[]);
        let file = put(kind, &empty, asked, &vec![b'n'; name], fields).unwrap();
        file.len() - empty.len()
    };
    for (kind, plain, with_word) in [
        (
            Kind::Sha1,
            [(1, 64), (2, 72), (9, 72), (10, 80)],
            [(1, 72), (8, 80)],
        ),
        (
            Kind::Sha256,
            [(5, 80), (6, 88), (13, 88), (14, 96)],
            [(3, 80), (4, 88)],
        ),
    ] {
        let fields = list_entry(kind);
        let word = Fields {
            skip_worktree: true,
            ..fields
        };
        for (name, expected) in plain {
            assert_eq!(length(kind, 2, fields, name), expected);
            assert_eq!(length(kind, 3, fields, name), expected);
        }
        for (name, expected) in with_word {
            assert_eq!(length(kind, 3, word, name), expected);
        }
    }
}

#[test]
fn length_fields() {
    for (kind, at) in [(Kind::Sha1, 72), (Kind::Sha256, 84)] {
        for (length, field) in [(4094, 4094u16), (4095, 4095), (4096, 4095)] {
            let file = index(kind, 2, &[&vec![b'n'; length]]);
            assert_eq!(file[at..at + 2], field.to_be_bytes());
            assert_eq!(names(kind, &file)[0].len(), length);
        }
    }
}

#[test]
fn numbers_of_version_4() {
    let cases: [(usize, &[u8]); 3] = [(127, &[0x7f]), (128, &[0x80, 0]), (8192, &[0xbf, 0])];
    for kind in Kind::ALL {
        let body = |file: &[u8]| file[..file.len() - kind.width()].to_vec();
        for (n, code) in cases {
            let long = vec![b'a'; n];
            let file = index(kind, 4, &[&long, b"b"]);
            let tail = [code, b"b\0"].concat();
            assert!(body(&file).ends_with(&tail));
            assert_eq!(names(kind, &file), [&long[..], b"b"]);
        }
        let saw: [&[u8]; 2] = [b"saw/cut.txt", b"saw/cutter.txt"];
        let file = index(kind, 4, &saw);
        assert!(body(&file).ends_with(b"\x04ter.txt\0"));
        assert_eq!(names(kind, &file), saw);
    }
}

#[test]
fn the_order_is_that_of_bytes() {
    for kind in Kind::ALL {
        for version in 2..=4 {
            let file = index(kind, version, &[b"a0", b"a/b", b"a-b"]);
            assert_eq!(names(kind, &file), [&b"a-b"[..], b"a/b", b"a0"]);
        }
    }
}

#[test]
fn a_put_makes_the_way_invalid() {
    for (kind, length) in [(Kind::Sha1, 51), (Kind::Sha256, 75)] {
        let mut data = Vec::new();
        node(kind, &mut data, b"", 3, 1);
        let below = data.len();
        node(kind, &mut data, b"a", 2, 0);
        assert_eq!(data.len(), length);
        let file = index(kind, 2, &[b"a-b", b"a/b", b"a/c"]);
        let file = extend(kind, &file, b"TREE", &data);
        assert!(check(kind, &file).ends_with("nodes 2 records absent"));
        let tree = |file: Result<Vec<u8>, u32>| {
            let file = file.unwrap();
            let at = file.windows(4).position(|bytes| bytes == b"TREE").unwrap();
            file[at + 8..file.len() - kind.width()].to_vec()
        };
        let put = |name| put(kind, &file, 2, name, list_entry(kind));
        assert_eq!(tree(rewrite(kind, &file, 4)), data);
        let invalid = b"\0-1 1\na\0-1 0\n";
        assert_eq!(tree(put(b"a/c")), invalid);
        assert_eq!(tree(remove(kind, &file, 2, b"a/b", 0)), invalid);
        let root = [&b"\0-1 1\n"[..], &data[below..]].concat();
        assert_eq!(tree(put(b"a")), root);
        assert_eq!(tree(remove(kind, &file, 2, b"a-b", 0)), root);
        assert_eq!(tree(put(b"z/a/b")), root);
    }
}

#[test]
fn a_resolve_undo_record() {
    for (kind, length) in [(Kind::Sha1, 61), (Kind::Sha256, 85)] {
        let (first, third) = (object(kind), vec![7; kind.width()]);
        let data = [&b"plan\x00100644\x000\x00100644\0"[..], &first, &third].concat();
        assert_eq!(data.len(), length);
        let file = extend(kind, &index(kind, 2, &[]), b"REUC", &data);
        assert!(check(kind, &file).ends_with("nodes absent records 1"));
        let record = |k| opponent::undo_record(kind.number(), &file, &mut workspace(), k);
        let reply = record(0);
        assert_eq!(shown(reply.path, &file, &[]), b"plan");
        let modes = reply.stages.map(|stage| stage.mode);
        assert_eq!(modes, [0o100644, 0, 0o100644]);
        let objects = reply.stages.map(|stage| stage.object);
        assert_eq!(objects, [kind.object(&first), [0; 32], kind.object_of(7)]);
        assert_eq!(record(1).refusal, 18);
        assert_eq!(rewrite(kind, &file, 1).unwrap(), file);
    }
}

#[test]
fn the_longest_name() {
    for kind in Kind::ALL {
        for version in 2..=4 {
            let longest = vec![b'n'; 8192];
            let file = index(kind, version, &[&longest]);
            assert_eq!(names(kind, &file), [&longest[..]]);
            let mut file = File::new(kind, version);
            file.entry(&[b'n'; 8193]);
            assert_eq!(check(kind, &file.finish()), "refused 9 at 12");
        }
        let empty = index(kind, 2, &[]);
        let fields = list_entry(kind);
        assert_eq!(put(kind, &empty, 2, &[b'n'; 8193], fields), Err(9));
    }
}

#[test]
fn the_deepest_tree() {
    for kind in Kind::ALL {
        for (levels, valid) in [(128, true), (129, false)] {
            let mut data = Vec::new();
            node(kind, &mut data, b"", 0, 1);
            for level in 2..=levels {
                node(kind, &mut data, b"a", 0, usize::from(level != levels));
            }
            let answer = check(kind, &extend(kind, &index(kind, 2, &[]), b"TREE", &data));
            match valid {
                true => assert!(answer.ends_with("nodes 128 records absent")),
                false => assert_eq!(answer, "refused 15 at 12"),
            }
        }
    }
}

#[test]
fn the_order_of_a_requests_refusals() {
    for kind in Kind::ALL {
        let fields = list_entry(kind);
        let word = Fields {
            intent_to_add: true,
            ..fields
        };
        let bad = Fields {
            mode: 0,
            stage: 4,
            ..word
        };
        let file = put(kind, &index(kind, 2, &[]), 3, b"a", word).unwrap();
        let put = |asked, name, fields| put(kind, &file, asked, name, fields);
        let remove = |asked, name, stage| remove(kind, &file, asked, name, stage);
        assert_eq!(put(5, b"", bad), Err(4));
        assert_eq!(put(2, b"", bad), Err(7));
        assert_eq!(put(2, b"", Fields { stage: 4, ..word }), Err(8));
        assert_eq!(put(2, b"", word), Err(9));
        let staged = Fields { stage: 1, ..fields };
        assert_eq!(put(5, b"a", staged), Err(4));
        assert_eq!(put(2, b"a", staged), Err(11));
        assert_eq!(put(2, b"b", staged), Err(21));
        assert_eq!(put(2, b"b", fields), Err(21));
        assert_eq!(put(2, b"a", fields), put(1, b"a", fields));
        assert_eq!(rewrite(kind, &file, 1), Ok(file.clone()));
        assert_eq!(remove(5, b"b", 0), Err(4));
        assert_eq!(remove(2, b"b", 0), Err(18));
        assert_eq!(remove(2, b"a", 9), Err(18));
        assert_eq!(remove(2, b"a", 0), Ok(index(kind, 2, &[])));
        assert_eq!(remove(3, b"a", 0), Ok(index(kind, 3, &[])));
    }
}

/// The versions that are written for 0 to 4: 0 is 4, and 1 is 2, or 3 where an entry of the result needs the word.
#[test]
fn versions_that_are_asked_for() {
    let version = |file: Result<Vec<u8>, u32>| file.map(|file| file[7]);
    for kind in Kind::ALL {
        let plain = index(kind, 2, &[b"a", b"b"]);
        let word = Fields {
            skip_worktree: true,
            ..list_entry(kind)
        };
        let extended = put(kind, &plain, 4, b"b", word).unwrap();
        let without = [Ok(4), Ok(2), Ok(2), Ok(3), Ok(4)];
        let with = [Ok(4), Ok(3), Err(21), Ok(3), Ok(4)];
        let asked = [0, 1, 2, 3, 4];
        assert_eq!(asked.map(|n| version(rewrite(kind, &plain, n))), without);
        assert_eq!(asked.map(|n| version(rewrite(kind, &extended, n))), with);
        let puts = |file, name| asked.map(|n| version(put(kind, file, n, name, word)));
        assert_eq!(puts(&plain, b"c"), with);
        let removes = |name| asked.map(|n| version(remove(kind, &extended, n, name, 0)));
        assert_eq!((removes(b"a"), removes(b"b")), (with, without));
        for above in [5, 6, 256, u32::MAX] {
            assert_eq!(rewrite(kind, &plain, above), Err(4));
            assert_eq!(put(kind, &plain, above, b"c", word), Err(4));
            assert_eq!(remove(kind, &plain, above, b"a", 0), Err(4));
        }
    }
}

/// Stage 0 and another stage of a name cannot be together; the other three can.
#[test]
fn puts_of_stages() {
    let at = |kind, stage| Fields {
        stage,
        ..list_entry(kind)
    };
    for kind in Kind::ALL {
        for version in 2..=4 {
            let put = |file: &[u8], stage| put(kind, file, version, b"a", at(kind, stage));
            let settled = index(kind, version, &[b"a"]);
            assert_eq!(put(&settled, 0), Ok(settled.clone()));
            for stage in 1..=3 {
                assert_eq!(put(&settled, stage), Err(11));
                assert_eq!(remove(kind, &settled, version, b"a", stage), Err(18));
            }
            let mut conflict = index(kind, version, &[]);
            for stage in [3, 1, 2] {
                conflict = put(&conflict, stage).unwrap();
                assert_eq!(put(&conflict, stage), Ok(conflict.clone()));
                assert_eq!(put(&conflict, 0), Err(11));
                assert_eq!(remove(kind, &conflict, version, b"a", 0), Err(18));
            }
            let stages = (0..3).map(|k| entry(kind, &conflict, k).0.stage);
            assert_eq!(stages.collect::<Vec<_>>(), [1, 2, 3]);
        }
    }
}

#[test]
fn what_is_written_and_what_is_not() {
    for kind in Kind::ALL {
        let number = kind.number();
        let file = index(kind, 4, &[b"saw/cut.txt", b"saw/cutter.txt"]);
        let mut work = vec![0xa5; WORKSPACE - 1];
        assert_eq!(opponent::entry(number, &file, &mut work, 1).refusal, 19);
        assert!(work.iter().all(|byte| *byte == 0xa5));
        let mut work = workspace();
        assert_eq!(opponent::entry(number, &file, &mut work, 1).refusal, 0);
        assert!(work.starts_with(b"saw/cutter.txt"));
        assert!(work[14..WORKSPACE].iter().all(|byte| *byte == 0));
        assert!(work[WORKSPACE..].iter().all(|byte| *byte == 0xa5));
        assert_eq!(opponent::entry(number, &file, &mut work, 2).refusal, 18);
        assert!(work[..WORKSPACE].iter().all(|byte| *byte == 0));
        let mut out = vec![0xa5; file.len() - 1];
        let reply = opponent::rewrite(number, &file, &mut work, &mut out, 4);
        assert_eq!((reply.refusal, reply.length), (20, 0));
        assert!(out.iter().all(|byte| *byte == 0xa5));
    }
}

#[test]
fn a_walk() {
    for (kind, end) in [(Kind::Sha1, 148), (Kind::Sha256, 172)] {
        let number = kind.number();
        let file = index(kind, 2, &[b"a", b"b/c"]);
        let next = |at, left| opponent::walk_next(number, &file, at, left);
        let start = opponent::walk_start(number, &file, &mut workspace());
        assert_eq!((start.refusal, start.at, start.left), (0, 12, 2));
        let first = next(start.at, start.left);
        assert_eq!(shown(first.name, &file, &[]), b"a");
        let second = next(first.at, first.left);
        assert_eq!(shown(second.name, &file, &[]), b"b/c");
        assert_eq!((second.at, second.left), (end, 0));
        let refused = StepReply {
            refusal: 18,
            ..StepReply::default()
        };
        assert_eq!(next(second.at, second.left), refused);
        assert_eq!(next(end, 7), refused);
        let compressed = index(kind, 4, &[b"a"]);
        let start = opponent::walk_start(number, &compressed, &mut workspace());
        assert_eq!(
            (start.refusal, start.place, start.at, start.left),
            (4, 0, 0, 0)
        );
    }
}

/// 29, or 19 where the workspace is too short, comes before all of the file and of the request.
#[test]
fn kinds_that_there_are_not() {
    for number in [0, 3, 0x0100_0001, u32::MAX] {
        for (length, refusal) in [(WORKSPACE - 1, 19), (WORKSPACE, 29)] {
            let mut work = vec![0xa5; length];
            let fields = list_entry(Kind::Sha1);
            let mut given = vec![opponent::check(number, b"", &mut work).refusal];
            given.push(opponent::entry(number, b"", &mut work, 0).refusal);
            given.push(opponent::tree_node(number, b"", &mut work, 0).refusal);
            given.push(opponent::undo_record(number, b"", &mut work, 0).refusal);
            given.push(opponent::rewrite(number, b"", &mut work, &mut [], 9).refusal);
            given.push(opponent::put(number, b"", &mut work, &mut [], 9, b"", fields).refusal);
            given.push(opponent::remove(number, b"", &mut work, &mut [], 9, b"", 0).refusal);
            given.push(opponent::walk_start(number, b"", &mut work).refusal);
            assert_eq!(given, [refusal; 8]);
            let left = if refusal == 19 { 0xa5 } else { 0 };
            assert_eq!(work, vec![left; length]);
        }
        assert_eq!(opponent::walk_next(number, b"", 12, 0).refusal, 29);
    }
}
