//! The stages of one name: 0 alone, or some of the others, which rise. A put that would bring 0 together with another is
//! refused with 11, and so is a file that has both.

use super::records::{entry, fields, file, putting, records, removing, Tree, EXECUTABLE};
use super::{in_versions, left_out, refused, Answer, Case, ASKED};
use crate::inputs::layout::{Field, Layout};
use crate::inputs::records::{Entry, Extension, Records, INTENT_TO_ADD, MODE};
use crate::inputs::requests::Call;
use crate::kind::Kind;
use crate::replies::Fields;
use std::sync::Arc;

const NAME: &[u8] = b"d/name";
/// What can be before and after the entries of the name, all at stage 0: nothing, names near it, others.
const AROUND: [(&[&[u8]], &[&[u8]]); 4] = [
    (&[], &[]),
    (&[], &[b"d/name0", b"e"]),
    (&[b"d/nam"], &[b"d/name/x"]),
    (&[b"a", b"d/nam-"], &[]),
];
/// The stages that a name can have.
const SETS: [&[u16]; 8] = [
    &[0],
    &[1],
    &[2],
    &[3],
    &[1, 2],
    &[1, 3],
    &[2, 3],
    &[1, 2, 3],
];
/// Rows of stages that it cannot have: the second may not come after the first.
const WRONG: [&[u16]; 12] = [
    &[0, 1],
    &[0, 2],
    &[0, 3],
    &[0, 1, 2, 3],
    &[0, 0],
    &[1, 0],
    &[1, 1],
    &[2, 0],
    &[2, 1],
    &[3, 0],
    &[3, 3],
    &[3, 2, 0],
];
/// Refusals of an entry that come before that of its order.
const EARLIER: [u32; 5] = [6, 7, 8, 9, 10];

/// The name at these stages between others.
fn between(kind: Kind, version: u32, around: (&[&[u8]], &[&[u8]]), stages: &[u16]) -> Records {
    let settled = |names: &[&[u8]]| -> Vec<Entry> {
        let entries = names.iter().map(|name| entry(name, 0));
        entries.collect()
    };
    let ours = stages.iter().map(|stage| entry(NAME, *stage)).collect();
    let entries = [settled(around.0), ours, settled(around.1)].concat();
    records(kind, version, entries, Vec::new())
}

/// An entry that differs from those that are there.
fn other(name: &[u8], stage: u16) -> Entry {
    let mut other = entry(name, stage);
    other.numbers[MODE] = EXECUTABLE;
    other.assume_valid = true;
    other
}

// ---- puts and removes

/// Each stage put beside, between and over each set of stages, and removed.
pub fn puts(kind: Kind) -> Vec<Case> {
    let mut cases = Vec::new();
    for version in 2..=4 {
        for around in AROUND {
            for stages in SETS {
                let before = between(kind, version, around, stages);
                let put = |stage| putting(&before, &other(NAME, stage));
                let puts = [0, 1, 2, 3].map(put);
                cases.extend(in_versions("stage put", &before, &puts, &ASKED));
                cases.extend(removes(&before, stages));
            }
        }
        cases.extend(near_names(kind, version));
        cases.extend(first_refusals(kind, version));
    }
    cases
}

/// Each stage removed: one that is not there is 18, whatever others are.
fn removes(before: &Records, stages: &[u16]) -> Vec<Case> {
    let (there, absent): (Vec<u16>, Vec<u16>) = (0..4).partition(|stage| stages.contains(stage));
    let remove = |stage: &u16| removing(before, NAME, (*stage).into());
    let removes: Vec<_> = there.iter().map(remove).collect();
    let mut cases = in_versions("stage removed", before, &removes, &[before.version]);
    let file = Arc::new(file(before));
    for stage in absent {
        let call = remove(&stage).call(before.version);
        cases.push(refused(before.kind, "stage absent", &file, call, 18));
    }
    cases
}

/// Names that begin as one that is there, or that it begins with, are others. Long names differ in their last byte alone.
fn near_names(kind: Kind, version: u32) -> Vec<Case> {
    let long = vec![b'n'; 8192];
    let differs = [&long[..8191], b"m"].concat();
    let near: [&[u8]; 8] = [
        b"d",
        b"d/nam",
        b"d/name-",
        b"d/name/x",
        b"d/name0",
        b"d/naMe",
        &long[..8191],
        &differs,
    ];
    let mut cases = Vec::new();
    for (there, put) in [(0, 1), (0, 3), (1, 0), (2, 0), (3, 0), (1, 2), (3, 2)] {
        let entries = vec![entry(NAME, there), entry(&long, there)];
        let before = records(kind, version, entries, Vec::new());
        let names = near.iter().copied().chain([&long[..]]);
        let puts: Vec<_> = names
            .map(|name| putting(&before, &other(name, put)))
            .collect();
        cases.extend(in_versions("near name", &before, &puts, &[0, 1]));
    }
    cases
}

/// 11 comes after 4, 7 and 8 and before 21 and 20. A stage above 3 is 8 whatever is there. A name that is 9 is in no file.
fn first_refusals(kind: Kind, version: u32) -> Vec<Case> {
    let mut cases = Vec::new();
    for (there, put) in [(0, 1), (0, 2), (0, 3), (1, 0), (2, 0), (3, 0)] {
        let mut before = between(kind, version, AROUND[2], &[there]);
        if version > 2 {
            before.entries[0].word = Some(INTENT_TO_ADD);
        }
        let file = Arc::new(file(&before));
        let sound = fields(&other(NAME, put));
        let word = Fields {
            skip_worktree: true,
            ..sound
        };
        let bad_mode = Fields { mode: 0, ..word };
        let stage_4 = Fields { stage: 4, ..word };
        let rows = [
            (11, 2, sound),
            (11, 2, word),
            (11, 4, word),
            (11, 0, sound),
            (11, 1, word),
            (4, 6, bad_mode),
            (4, 5, sound),
            (7, 2, bad_mode),
            (8, 2, stage_4),
        ];
        for (number, asked, fields) in rows {
            let call = Call::Put(asked, NAME.to_vec(), fields);
            cases.push(refused(kind, "mixing put", &file, call, number));
        }
    }
    cases
}

// ---- files

/// Requests on files that have stages of a name that cannot be together, some with an earlier fault in the second of them.
pub fn files(kind: Kind) -> Vec<Case> {
    let mut cases = Vec::new();
    for version in 2..=4 {
        for around in AROUND {
            for stages in WRONG {
                let wrong = between(kind, version, around, stages);
                cases.extend(mixed(&wrong, around.0.len() + 1, None));
            }
        }
        for stages in &WRONG[..3] {
            for number in EARLIER {
                let wrong = between(kind, version, AROUND[3], stages);
                cases.extend(mixed(&wrong, AROUND[3].0.len() + 1, Some(number)));
            }
        }
    }
    [left_out(kind, cases.clone()), cases].concat()
}

/// Every call that writes, on a file that is refused at the given entry: for its order, or for an earlier fault.
fn mixed(wrong: &Records, at: usize, earlier: Option<u32>) -> Vec<Case> {
    let mut wrong = wrong.clone();
    for entry in &mut wrong.entries {
        entry.word = (wrong.version > 2).then_some(0);
    }
    // An extension behind the entries, whose counts are wrong, is not looked at.
    let tree = Tree::new(b"", 77, &[]);
    wrong.extensions = vec![Extension::Undo(Vec::new()), tree.extension()];
    let mut layout = Layout::new(&wrong);
    let place = layout.place(layout.parts_of(Field::Entry)[at]);
    let mut body = layout.body();
    if let Some(number) = earlier {
        body = with_fault(&mut layout, at, number);
    }
    let file = Arc::new(wrong.kind.signed(body));
    let name = || NAME.to_vec();
    let fields = fields(&entry(NAME, 0));
    let calls = [
        Call::Rewrite(0),
        Call::Put(4, name(), fields),
        Call::Put(9, b"".to_vec(), Fields { mode: 0, ..fields }),
        Call::Remove(1, name(), 0),
        Call::Remove(9, b"c".to_vec(), 9),
    ];
    let number = earlier.unwrap_or(11);
    let case = |call| Case {
        answer: Answer::Refused(number, place),
        ..refused(wrong.kind, "mixed stages", &file, call, 0)
    };
    calls.map(case).into()
}

/// The body with a fault of an entry that is told before its order.
fn with_fault(layout: &mut Layout, at: usize, number: u32) -> Vec<u8> {
    let part = |layout: &Layout, field| layout.parts_of(field)[at];
    let flags = part(layout, Field::Flags);
    let (high, low) = match layout.part(flags)[..] {
        [high, low] => (high, low),
        _ => unreachable!("flags have two bytes"),
    };
    let version = layout.version;
    let (field, bytes) = match number {
        // The entry lacks its last byte, and nothing is behind it.
        6 => {
            let entry = part(layout, Field::Entry);
            let end = layout.place(entry) + layout.part(entry).len();
            return layout.body()[..end - 1].to_vec();
        }
        7 => (Field::Mode, vec![0, 0, 0, 1]),
        8 if version == 2 => (Field::Flags, vec![high | 0x40, low]),
        8 => (Field::Word, vec![0x80, 0]),
        // The name is the same, and the field is not its length. In versions 2 and 3 it then ends at a NUL.
        9 if version == 4 => (Field::Flags, vec![high, low + 1]),
        9 => (Field::Flags, vec![high | 0x0f, 0xff]),
        _ if version == 4 => (Field::Offset, vec![0x7f]),
        _ => (Field::Padding, vec![1]),
    };
    let part = part(layout, field);
    let mut new = layout.part(part);
    new[..bytes.len()].copy_from_slice(&bytes);
    layout.replace(part, &new);
    layout.body()
}
