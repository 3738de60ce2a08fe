//! Results in all versions: where entries come and go, names, N, the extended word, extensions.

use super::records::{
    entry, file, of_names, putting, records, removing, rewriting, undo, Tree, EXECUTABLE, REGULAR,
};
use super::{in_versions, left_out, refused, Answer, Case, ASKED};
use crate::inputs::names;
use crate::inputs::records::{Entry, Extension, INTENT_TO_ADD, MODE, MODES, SKIP_WORKTREE};
use crate::inputs::requests::Call;
use crate::kind::{Kind, OBJECT};
use std::sync::Arc;

/// The cases of document 01 that are about writing.
pub fn document(kind: Kind) -> Vec<Case> {
    let tree = of_names(kind, 2, &[b"a-b", b"a/b", b"a/c"], true);
    let put = putting(&tree, &tree.entries[2]);
    let mut cases = in_versions("tree after a put", &tree, &[put], &[0, 1]);
    let saw = of_names(kind, 2, &[b"saw/cut.txt", b"saw/cutter.txt"], false);
    cases.extend(in_versions("saw", &saw, &[rewriting(&saw)], &ASKED));
    let plan = vec![undo(b"plan", [REGULAR, 0, REGULAR])];
    let plan = records(kind, 2, Vec::new(), vec![Extension::Undo(plan)]);
    cases.extend(in_versions("undo", &plan, &[rewriting(&plan)], &ASKED));
    cases
}

/// An entry that can run.
fn executable(name: &[u8]) -> Entry {
    let mut entry = entry(name, 0);
    entry.numbers[MODE] = EXECUTABLE;
    entry
}

/// Puts before, between, after and over the entries, stages beside them, and each entry removed, from every version to
/// every other.
pub fn places(kind: Kind) -> Vec<Case> {
    let names: [&[u8]; 3] = [b"b", b"b/c", b"d"];
    let mut cases = Vec::new();
    for version in 2..=4 {
        let mut before = of_names(kind, version, &names, true);
        for (k, entry) in before.entries.iter_mut().enumerate() {
            entry.object = [k as u8; OBJECT];
            entry.numbers = std::array::from_fn(|n| (k + n) as u32);
            entry.numbers[MODE] = REGULAR;
        }
        let mut puts: Vec<Entry> = before.entries.clone();
        puts.extend([&b"a"[..], b"b-", b"b/b", b"b/d", b"c", b"e"].map(executable));
        puts.extend(names.map(executable));
        for name in [&b"a"[..], b"b-", b"b/b", b"c", b"e"] {
            puts.extend([1, 2, 3].map(|stage| entry(name, stage)));
        }
        let mut changes = vec![rewriting(&before)];
        changes.extend(puts.iter().map(|put| putting(&before, put)));
        changes.extend(names.map(|name| removing(&before, name, 0)));
        cases.extend(in_versions("place", &before, &changes, &ASKED));
        cases.extend(few_entries(kind, version));
    }
    cases
}

/// The last entry goes, one comes into an empty file, and each of three stages goes.
fn few_entries(kind: Kind, version: u32) -> Vec<Case> {
    let mut cases = Vec::new();
    for tree in [false, true] {
        let one = of_names(kind, version, &[b"b"], tree);
        let last = [removing(&one, b"b", 0)];
        cases.extend(in_versions("the last entry goes", &one, &last, &ASKED));
        let empty = of_names(kind, version, &[], tree);
        let first = [rewriting(&empty), putting(&empty, &entry(b"b", 0))];
        cases.extend(in_versions("empty", &empty, &first, &ASKED));
    }
    let stages = (1..4).map(|stage| entry(b"s", stage)).collect();
    let stages = records(kind, version, stages, Vec::new());
    let changes: Vec<_> = (1..4).map(|stage| removing(&stages, b"s", stage)).collect();
    cases.extend(in_versions("stages", &stages, &changes, &ASKED));
    cases
}

/// Names of all lengths and near the forbidden ones.
fn good_names() -> Vec<Vec<u8>> {
    let lengths = [1, 2, 8, 9, 10, 127, 128, 4094, 4095, 4096, 8191, 8192];
    let mut good: Vec<Vec<u8>> = lengths.map(|length| vec![b'n'; length]).to_vec();
    good.push([&b"x/".repeat(4095)[..], b"x"].concat());
    let near: [&[u8]; 8] = [
        b".gitx", b"...", b"a/..b", b".Git", b"a.git/b", b"\x01", b"\xff", b"a\nb",
    ];
    good.extend(near.map(<[u8]>::to_vec));
    good
}

fn bad_names() -> Vec<Vec<u8>> {
    let mut bad: Vec<Vec<u8>> = names::BAD.map(<[u8]>::to_vec).to_vec();
    bad.extend([8193, 20_000].map(|length| vec![b'x'; length]));
    bad.push([&b"x/".repeat(20)[..], b".git/y/y"].concat());
    bad.push(b"dir/file///".to_vec());
    bad
}

/// Names that are put and removed, names that cannot be, and names and stages that are not there.
pub fn names(kind: Kind) -> Vec<Case> {
    let mut cases = Vec::new();
    for version in 2..=4 {
        let before = of_names(kind, version, &[b"m", b"o"], false);
        for name in good_names() {
            let put = [putting(&before, &entry(&name, 0))];
            cases.extend(in_versions("name put", &before, &put, &[2, 3, 4]));
            let mut there = before.clone();
            there.entries.push(entry(&name, 0));
            there.entries.sort_by(|a, b| a.name.cmp(&b.name));
            let remove = [removing(&there, &name, 0)];
            cases.extend(in_versions("name removed", &there, &remove, &[2, 4]));
        }
        let file = Arc::new(file(&before));
        for name in bad_names() {
            let put = putting(&before, &entry(&name, 0)).call(version);
            cases.push(refused(kind, "bad name put", &file, put, 9));
            let remove = Call::Remove(version, name, 0);
            cases.push(refused(kind, "bad name removed", &file, remove, 18));
        }
        let absent = |(name, stage)| {
            let remove = Call::Remove(version, name, stage);
            refused(kind, "absent", &file, remove, 18)
        };
        cases.extend(absent_keys().into_iter().map(absent));
    }
    cases
}

/// Names and stages that no entry of the names m and o has.
fn absent_keys() -> Vec<(Vec<u8>, u32)> {
    let mut keys = Vec::new();
    for name in good_names()
        .into_iter()
        .chain([b"m".to_vec(), b"o".to_vec()])
    {
        keys.extend([1, 3, 4, 9, u32::MAX].map(|stage| (name.clone(), stage)));
    }
    keys.extend([&b"mm"[..], b"m/m", b"m\0"].map(|name| (name.to_vec(), 0)));
    keys
}

/// N of version 4 at its limits: written, and changed by an entry that comes before or goes.
pub fn numbers(kind: Kind) -> Vec<Case> {
    let taken = [
        1, 126, 127, 128, 129, 255, 256, 4095, 4096, 8063, 8064, 8191, 8192,
    ];
    let mut cases = Vec::new();
    for taken in taken {
        for version in [2, 4] {
            cases.extend(number(kind, taken, version));
        }
    }
    for more in [0, 1, 3, 10_000] {
        let names: [&[u8]; 5] = [b"ab/cd/ef", b"ab/cd/eg", b"ab/cd/eg/h", b"ab/cf", b"b"];
        let mut before = of_names(kind, 4, &names, false);
        before
            .entries
            .iter_mut()
            .for_each(|entry| entry.more = more);
        let mut changes = vec![rewriting(&before)];
        changes.extend(names.map(|name| removing(&before, name, 0)));
        let new: [&[u8]; 6] = [b"a", b"ab/cd/ef0", b"ab/cd/eg/g", b"ab/ce", b"ab/cf", b"c"];
        changes.extend(new.map(|name| putting(&before, &entry(name, 0))));
        cases.extend(in_versions("larger N", &before, &changes, &[3, 4]));
    }
    cases
}

/// A name of 8,192 bytes, and one after it that takes the given number of bytes from its end.
fn number(kind: Kind, taken: usize, version: u32) -> Vec<Case> {
    let long = vec![b'p'; 8192];
    let (first, last) = (long.clone(), [&long[..8192 - taken], b"q"].concat());
    let mut both = of_names(kind, version, &[&first, &last], false);
    both.entries[1].more = 10_000;
    let changes = [
        rewriting(&both),
        removing(&both, &last, 0),
        removing(&both, &first, 0),
    ];
    let mut cases = in_versions("N", &both, &changes, &[2, 4]);
    for (one, other) in [(&first, &last), (&last, &first)] {
        let before = of_names(kind, version, &[one], false);
        let put = [putting(&before, &entry(other, 0))];
        cases.extend(in_versions("N of a put", &before, &put, &[4]));
    }
    cases
}

/// The extended word: present where it is needed, and the versions that follow from it.
pub fn words(kind: Kind) -> Vec<Case> {
    let words = [
        0,
        SKIP_WORKTREE,
        INTENT_TO_ADD,
        SKIP_WORKTREE | INTENT_TO_ADD,
    ];
    let mut cases = Vec::new();
    for version in [3, 4] {
        for word in words {
            for (assume_valid, stage) in [(false, 0), (true, 0), (true, 3)] {
                let plain = Entry {
                    assume_valid,
                    word: Some(0),
                    ..entry(b"w", stage)
                };
                cases.extend(word_among_others(kind, version, plain, word));
            }
        }
    }
    let before = of_names(kind, 2, &[b"a"], false);
    for mode in MODES {
        let largest = words.map(|word| putting(&before, &largest(mode, word)));
        cases.extend(in_versions("largest fields", &before, &largest, &ASKED));
    }
    cases
}

/// An entry with this word in the middle: all is rewritten, it goes, its word goes, another word comes, another entry
/// goes.
fn word_among_others(kind: Kind, version: u32, plain: Entry, word: u16) -> Vec<Case> {
    let with = |word: u16, name: &[u8]| Entry {
        word: Some(word),
        name: name.to_vec(),
        ..plain.clone()
    };
    let entries = vec![entry(b"v", 0), with(word, b"w"), entry(b"x", 0)];
    let before = records(kind, version, entries, Vec::new());
    let changes = [
        rewriting(&before),
        removing(&before, b"w", plain.stage.into()),
        putting(&before, &plain),
        putting(&before, &with(INTENT_TO_ADD, b"y")),
        removing(&before, b"v", 0),
    ];
    in_versions("word", &before, &changes, &ASKED)
}

/// An entry with the largest value in each field.
fn largest(mode: u32, word: u16) -> Entry {
    let mut largest = entry(b"m", 3);
    largest.numbers = [u32::MAX; 10];
    largest.numbers[MODE] = mode;
    largest.object = [0xff; OBJECT];
    largest.assume_valid = true;
    largest.word = Some(word);
    largest
}

/// What is kept of extensions, and what is dropped.
pub fn extensions(kind: Kind) -> Vec<Case> {
    let tree = Tree::new(b"", -5, &[Tree::new(b"a", 1, &[])]).extension();
    let two = vec![
        undo(b"a/b", [REGULAR, 0, EXECUTABLE]),
        undo(b"c", [0, MODES[2], MODES[3]]),
    ];
    let undos = [None, Some(vec![]), Some(two)].map(|records| records.map(Extension::Undo));
    let mut cases = Vec::new();
    for version in 2..=4 {
        for undo in undos.clone() {
            let with_tree = [Some(tree.clone()), undo.clone()];
            for known in [with_tree, [None, undo]] {
                cases.extend(kept_and_dropped(
                    kind,
                    version,
                    known.into_iter().flatten().collect(),
                ));
            }
        }
    }
    cases
}

/// The known extensions as they are and turned round, alone and with others before, between and after them.
fn kept_and_dropped(kind: Kind, version: u32, known: Vec<Extension>) -> Vec<Case> {
    let mut cases = Vec::new();
    let turned = known.iter().rev().cloned().collect();
    for row in [known, turned] {
        for row in [with_others(row.clone()), row] {
            let before = records(kind, version, vec![entry(b"a/b", 0), entry(b"c", 0)], row);
            let changes = [
                rewriting(&before),
                putting(&before, &executable(b"a/b")),
                putting(&before, &entry(b"a/bb", 1)),
                removing(&before, b"c", 0),
            ];
            cases.extend(in_versions("extensions", &before, &changes, &[version]));
        }
    }
    cases
}

fn with_others(mut row: Vec<Extension>) -> Vec<Extension> {
    row.insert(0, Extension::Passed(*b"ABCD", b"first".to_vec()));
    row.insert(row.len().min(2), Extension::Passed(*b"FSMN", Vec::new()));
    row.push(Extension::Passed(*b"UNTR", b"last".to_vec()));
    row.push(Extension::Passed(*b"EOIE", vec![0; 24]));
    row
}

/// Files whose checksum is left out, and ones that have zeros in its place but for one byte.
pub fn checksums(kind: Kind) -> Vec<Case> {
    let mut cases = left_out(kind, document(kind));
    cases.extend(left_out(kind, extensions(kind)));
    for version in 2..=4 {
        cases.extend(left_out(kind, few_entries(kind, version)));
        let before = of_names(kind, version, &[b"a", b"b/c"], true);
        let changes = [
            rewriting(&before),
            putting(&before, &executable(b"b/c")),
            removing(&before, b"a", 0),
        ];
        let sound = left_out(kind, in_versions("zeros", &before, &changes, &ASKED));
        for case in &sound {
            cases.extend(one_zero_changed(kind, case));
        }
        cases.extend(sound);
    }
    cases
}

/// A request on a file whose checksum is left out, with one of the zeros another byte: the first, the last, or the ones
/// where 20 begin or end.
fn one_zero_changed(kind: Kind, case: &Case) -> Vec<Case> {
    let (width, body) = (kind.width(), case.file.len() - kind.width());
    let mut cases = Vec::new();
    for (at, byte) in [(0, 0x80), (width - 20, 1), (19, 0xff), (width - 1, 1)] {
        let mut file = case.file.to_vec();
        file[body + at] = byte;
        cases.push(Case {
            kind: case.kind,
            name: format!("{}, but for byte {at}", case.name),
            file: Arc::new(file),
            call: case.call.clone(),
            work: case.work,
            room: Some(0),
            answer: Answer::Refused(5, body),
        });
    }
    cases
}
