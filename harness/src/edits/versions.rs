//! The version of what is written. It is told here by the one that is asked for, and by whether an entry of the result
//! needs the extended word.

use super::records::{entry, putting, records, removing, rewriting, undo, Change, Tree, REGULAR};
use super::{in_versions, Answer, Case, ASKED};
use crate::inputs::records::{Entry, Extension, Records, INTENT_TO_ADD, SKIP_WORKTREE};
use crate::kind::Kind;
use std::slice;

/// What is written where 0, 1, 2, 3 and 4 are asked for: its version, or nothing and the answer is 21.
type Written = [Option<u32>; ASKED.len()];

/// Where no entry of the result needs the extended word: 0 is as 4, and 1 as 2.
const PLAIN: Written = [Some(4), Some(2), Some(2), Some(3), Some(4)];
/// Where one does: 0 is as 4, and 1 as 3. Only 2 is refused.
const EXTENDED: Written = [Some(4), Some(3), None, Some(3), Some(4)];

const NAMES: [&[u8]; 3] = [b"a/b", b"a/c", b"d"];
/// The extended words that are not zero.
const WORDS: [u16; 3] = [SKIP_WORKTREE, INTENT_TO_ADD, SKIP_WORKTREE | INTENT_TO_ADD];

// ---- making cases

/// The names' entries with these words, in each version that can have them, with each row of extensions.
fn files(kind: Kind, words: [Option<u16>; 3]) -> Vec<Records> {
    let named = NAMES.iter().zip(words);
    let entries: Vec<Entry> = named.map(|(name, word)| with(name, 0, word)).collect();
    let first = if words == [None; 3] { 2 } else { 3 };
    let mut files = Vec::new();
    for version in first..=4 {
        let row = |row| records(kind, version, entries.clone(), row);
        files.extend(extensions().map(row));
    }
    files
}

/// An entry with a word or without.
fn with(name: &[u8], stage: u16, word: Option<u16>) -> Entry {
    Entry {
        word,
        ..entry(name, stage)
    }
}

/// No extension, a cache tree, resolve undo, and both of them turned round with another.
fn extensions() -> [Vec<Extension>; 4] {
    let tree = Tree::of(b"", &NAMES).extension();
    let undo = Extension::Undo(vec![undo(b"plan", [REGULAR, 0, REGULAR])]);
    let other = Extension::Passed(*b"ABCD", b"other".to_vec());
    [
        vec![],
        vec![tree.clone()],
        vec![undo.clone()],
        vec![undo, other, tree],
    ]
}

/// A change, with each version that can be asked for.
fn asked(name: &str, before: &Records, change: &Change, written: Written) -> Vec<Case> {
    let mut cases = in_versions(name, before, slice::from_ref(change), &ASKED);
    for (case, version) in cases.iter_mut().zip(written) {
        case.answer = match version {
            Some(version) => change.written(version),
            None => Answer::Refused(21, 0),
        };
    }
    cases
}

// ---- the groups

/// Files that are rewritten: without a word, with words that are zero, and with one that is not.
pub fn rewrites(kind: Kind) -> Vec<Case> {
    let mut rows = vec![
        ([None; 3], PLAIN),
        ([Some(0), None, Some(0)], PLAIN),
        ([Some(0); 3], PLAIN),
    ];
    for word in WORDS {
        for k in 0..NAMES.len() {
            let mut words = [None, Some(0), None];
            words[k] = Some(word);
            rows.push((words, EXTENDED));
        }
        rows.push(([Some(word); 3], EXTENDED));
    }
    let mut cases = Vec::new();
    for (words, written) in rows {
        for before in files(kind, words) {
            cases.extend(asked("rewritten", &before, &rewriting(&before), written));
        }
    }
    for version in 2..=4 {
        let empty = records(kind, version, Vec::new(), Vec::new());
        cases.extend(asked("empty", &empty, &rewriting(&empty), PLAIN));
    }
    cases
}

/// Puts and removes that bring the first word, keep one, or take the last one away.
pub fn edits(kind: Kind) -> Vec<Case> {
    let mut cases = Vec::new();
    for word in WORDS {
        let word = Some(word);
        for before in [files(kind, [None; 3]), files(kind, [None, Some(0), None])].concat() {
            cases.extend(first_word(&before, word));
        }
        for before in files(kind, [None, None, word]) {
            cases.extend(only_word(&before, word));
        }
        for before in files(kind, [word, None, word]) {
            cases.extend(one_of_two(&before));
        }
        for version in 3..=4 {
            cases.extend(in_conflict(kind, version, word));
        }
    }
    cases
}

/// No entry needs the word before.
fn first_word(before: &Records, word: Option<u16>) -> Vec<Case> {
    let rows = [
        (putting(before, &with(b"a/bb", 0, word)), EXTENDED),
        (putting(before, &with(b"d", 0, word)), EXTENDED),
        (putting(before, &with(b"e", 3, word)), EXTENDED),
        (putting(before, &with(b"a/bb", 0, Some(0))), PLAIN),
        (putting(before, &entry(b"d", 0)), PLAIN),
        (removing(before, b"a/c", 0), PLAIN),
    ];
    all("first word", before, &rows)
}

/// The entry d alone needs the word before.
fn only_word(before: &Records, word: Option<u16>) -> Vec<Case> {
    let rows = [
        (removing(before, b"d", 0), PLAIN),
        (putting(before, &entry(b"d", 0)), PLAIN),
        (putting(before, &with(b"d", 0, Some(0))), PLAIN),
        (putting(before, &with(b"d", 0, word)), EXTENDED),
        (putting(before, &entry(b"c", 0)), EXTENDED),
        (putting(before, &with(b"c", 0, word)), EXTENDED),
        (removing(before, b"a/b", 0), EXTENDED),
    ];
    all("only word", before, &rows)
}

/// The entries a/b and d need the word before.
fn one_of_two(before: &Records) -> Vec<Case> {
    let rows = [
        (removing(before, b"a/b", 0), EXTENDED),
        (removing(before, b"d", 0), EXTENDED),
        (putting(before, &entry(b"d", 0)), EXTENDED),
    ];
    all("one of two words", before, &rows)
}

/// Of a name's stages 1 and 2 the second needs the word. An entry alone, which needs it, goes or comes.
fn in_conflict(kind: Kind, version: u32, word: Option<u16>) -> Vec<Case> {
    let stages = vec![entry(b"s", 1), with(b"s", 2, word)];
    let both = records(kind, version, stages, Vec::new());
    let rows = [
        (removing(&both, b"s", 1), EXTENDED),
        (removing(&both, b"s", 2), PLAIN),
        (putting(&both, &entry(b"s", 2)), PLAIN),
        (putting(&both, &entry(b"s", 3)), EXTENDED),
    ];
    let mut cases = all("word of a stage", &both, &rows);
    let one = records(kind, version, vec![with(b"s", 2, word)], Vec::new());
    let rows = [(removing(&one, b"s", 2), PLAIN)];
    cases.extend(all("the last entry", &one, &rows));
    let none = records(kind, version, Vec::new(), Vec::new());
    let rows = [(putting(&none, &with(b"s", 2, word)), EXTENDED)];
    cases.extend(all("the first entry", &none, &rows));
    cases
}

fn all(name: &str, before: &Records, rows: &[(Change, Written)]) -> Vec<Case> {
    let rows = rows.iter();
    rows.flat_map(|(change, written)| asked(name, before, change, *written))
        .collect()
}
