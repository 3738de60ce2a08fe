//! What is asked of an input.

use super::{names, Input};
use crate::ffi::HASHES;
use crate::kind::Kind;
use crate::opponent;
use crate::random::Random;
use crate::replies::{CheckReply, Fields, WORKSPACE};
use std::fmt;

/// Versions to ask for. What 0 and 1 ask for is 4, and 2 or 3.
const ASKED: [u32; 13] = [0, 0, 0, 1, 1, 1, 2, 2, 2, 3, 3, 4, 4];
/// Versions that cannot be asked for, some with bytes of ones that can.
pub const ABOVE: [u32; 12] = [
    5,
    6,
    7,
    8,
    34,
    256,
    257,
    258,
    0x1_0003,
    0x0200_0000,
    0x8000_0002,
    u32::MAX,
];
const STAGES: [u32; 12] = [0, 0, 0, 0, 1, 2, 3, 4, 7, 256, 0x1_0000, u32::MAX];
const MODES: [u32; 12] = [
    0o100644, 0o100644, 0o100644, 0o100755, 0o120000, 0o160000, 0o100755, 0o160000, 0, 0o100664,
    0o40000, 0x1_81a4,
];
/// Files above this length are asked less.
const LONG: usize = 8192;

/// A call with all but the file and what is lent.
#[derive(Clone)]
pub enum Call {
    Check,
    Entry(u32),
    TreeNode(u32),
    UndoRecord(u32),
    Rewrite(u32),
    Put(u32, Vec<u8>, Fields),
    Remove(u32, Vec<u8>, u32),
    WalkStart,
    WalkNext(usize, u32),
    /// The digest of the file by the hash function of a kind.
    Hash(Kind),
}

impl Call {
    /// Whether it takes a workspace.
    pub fn works(&self) -> bool {
        !matches!(self, Self::WalkNext(..) | Self::Hash(_))
    }

    /// Whether it takes an output.
    pub fn writes(&self) -> bool {
        matches!(self, Self::Rewrite(_) | Self::Put(..) | Self::Remove(..))
    }

    /// The same with another version asked for, where it writes.
    pub fn asking(&self, asked: u32) -> Self {
        match self.clone() {
            Self::Rewrite(_) => Self::Rewrite(asked),
            Self::Put(_, name, fields) => Self::Put(asked, name, fields),
            Self::Remove(_, name, stage) => Self::Remove(asked, name, stage),
            other => other,
        }
    }

    /// The version that it asks for, where it writes.
    pub fn asked(&self) -> Option<u32> {
        match self {
            Self::Rewrite(asked) | Self::Put(asked, ..) | Self::Remove(asked, ..) => Some(*asked),
            _ => None,
        }
    }

    /// The name that it takes.
    pub fn name(&self) -> &[u8] {
        match self {
            Self::Put(_, name, _) | Self::Remove(_, name, _) => name,
            _ => b"",
        }
    }
}

impl fmt::Display for Call {
    fn fmt(&self, f: &mut fmt::Formatter) -> fmt::Result {
        match self {
            Self::Check => write!(f, "check"),
            Self::Entry(k) => write!(f, "entry {k}"),
            Self::TreeNode(k) => write!(f, "tree_node {k}"),
            Self::UndoRecord(k) => write!(f, "undo_record {k}"),
            Self::Rewrite(asked) => write!(f, "rewrite in {asked}"),
            Self::Put(asked, name, fields) => {
                write!(f, "put in {asked}, name {}, {fields:?}", shown(name))
            }
            Self::Remove(asked, name, stage) => {
                write!(f, "remove in {asked}, name {}, stage {stage}", shown(name))
            }
            Self::WalkStart => write!(f, "walk_start"),
            Self::WalkNext(at, left) => write!(f, "walk_next at {at}, {left} left"),
            Self::Hash(kind) => write!(f, "{}", kind.name()),
        }
    }
}

/// A name for people: its beginning, and its length where that is not all.
fn shown(name: &[u8]) -> String {
    const SHOWN: usize = 80;
    match name.get(..SHOWN) {
        None => format!("\"{}\"", name.escape_ascii()),
        Some(start) => format!("\"{}\".. of {} bytes", start.escape_ascii(), name.len()),
    }
}

/// The length of a workspace: mostly just enough, at times more, seldom too little.
pub fn workspace(random: &mut Random) -> usize {
    match random.below(32) {
        0 => *random.pick(&[0, 1, WORKSPACE - 1]),
        1..=4 => WORKSPACE + 1,
        5 | 6 => 10_000,
        _ => WORKSPACE,
    }
}

/// Every call, with several requests where the file was accepted.
pub fn calls(random: &mut Random, input: &Input, checked: &CheckReply) -> Vec<Call> {
    let times = match checked.refusal {
        0 if input.bytes.len() <= LONG => 3,
        _ => 1,
    };
    let mut calls = vec![Call::Check, Call::WalkStart];
    calls.extend(HASHES.iter().map(|hash| Call::Hash(hash.kind)));
    for _ in 0..times {
        calls.push(Call::Entry(number(random, checked.entries)));
        calls.push(Call::TreeNode(number(random, checked.nodes)));
        calls.push(Call::UndoRecord(number(random, checked.records)));
        calls.push(Call::Rewrite(version(random)));
        calls.push(put(random, input));
        calls.push(remove(random, input));
        calls.extend(of_entry(random, input, checked));
        calls.push(forged(random, input));
        calls.push(forged(random, input));
    }
    calls
}

/// A version to ask for, mostly one that can be.
fn version(random: &mut Random) -> u32 {
    match random.one_in(4) {
        true => *random.pick(&ABOVE),
        false => *random.pick(&ASKED),
    }
}

/// A number of an entry, node or record: mostly of one that there is, or close to the last, or far beyond.
fn number(random: &mut Random, count: u32) -> u32 {
    match random.below(8) {
        0 => count,
        1 => count.saturating_add(1),
        2 => u32::MAX,
        3 => count.saturating_sub(1),
        _ => random.below(count as usize + 1) as u32,
    }
}

fn put(random: &mut Random, input: &Input) -> Call {
    let mut numbers = [0; 9].map(|_| random.next() as u32);
    if random.one_in(4) {
        numbers = [u32::MAX; 9];
    }
    let fields = Fields {
        ctime_seconds: numbers[0],
        ctime_nanoseconds: numbers[1],
        mtime_seconds: numbers[2],
        mtime_nanoseconds: numbers[3],
        dev: numbers[4],
        ino: numbers[5],
        mode: *random.pick(&MODES),
        uid: numbers[6],
        gid: numbers[7],
        size: numbers[8],
        object: random.array(),
        assume_valid: random.one_in(2),
        stage: *random.pick(&STAGES),
        skip_worktree: random.one_in(4),
        intent_to_add: random.one_in(4),
    };
    Call::Put(version(random), name(random, input), fields)
}

fn remove(random: &mut Random, input: &Input) -> Call {
    let stage = *random.pick(&STAGES);
    Call::Remove(version(random), name(random, input), stage)
}

/// A put of an entry that is there, as it is, with another mode or at another stage, or its removal.
fn of_entry(random: &mut Random, input: &Input, checked: &CheckReply) -> Option<Call> {
    if checked.entries == 0 {
        return None;
    }
    let k = random.below(checked.entries as usize);
    let name = input.names.get(k)?.clone();
    let kind = input.kind.number();
    let entry = opponent::entry(kind, &input.bytes, &mut vec![0; WORKSPACE], k as u32);
    let (asked, fields) = (version(random), entry.fields);
    Some(match random.below(4) {
        0 => Call::Remove(asked, name, fields.stage),
        1 => Call::Put(asked, name, fields),
        2 => {
            let stage = other_stage(random, fields.stage);
            Call::Put(asked, name, Fields { stage, ..fields })
        }
        _ => {
            let mode = *random.pick(&MODES);
            Call::Put(asked, name, Fields { mode, ..fields })
        }
    })
}

/// A stage to put beside one that is there, mostly one that may not be there with it.
fn other_stage(random: &mut Random, stage: u32) -> u32 {
    match stage {
        0 => 1 + random.below(3) as u32,
        _ => *random.pick(&[0, 0, 0, 1, 2, 3]),
    }
}

/// A name: one that is there, one near it, one before or after all, a new one or a bad one.
fn name(random: &mut Random, input: &Input) -> Vec<u8> {
    let known = match input.names.len() {
        0 => b"a/b".to_vec(),
        _ => random.pick(&input.names).clone(),
    };
    match random.below(16) {
        0..=5 => known,
        6..=10 => near(random, &known),
        11 => known[..known.len().saturating_sub(1)].to_vec(),
        12 => random
            .pick(&[&b"\x01"[..], b"\xff\xff", b"!/a", b"~~/~"])
            .to_vec(),
        13 => names::long(random),
        14 => names::bad(random),
        _ => names::sound(random, 4),
    }
}

/// A name near this one: behind it, in or beside a directory above it, or one of these directories.
pub fn near(random: &mut Random, name: &[u8]) -> Vec<u8> {
    let slash = name.iter().rposition(|&byte| byte == b'/');
    let directory = &name[..slash.map_or(0, |at| at + 1)];
    let first = name.split(|&byte| byte == b'/').next().unwrap_or(name);
    let tails: [&[u8]; 8] = [b"x", b"/x", b"-", b"0", b"~", b"\x01", b"/x/y", b"/a"];
    match random.below(6) {
        0 | 1 => [name, *random.pick(&tails)].concat(),
        2 => [first, *random.pick(&[&b""[..], b"/x", b"/x/y"])].concat(),
        3 => slash.map_or(name, |at| &name[..at]).to_vec(),
        4 => [directory, &names::component(random)].concat(),
        _ => [directory, &names::sound(random, 2)].concat(),
    }
}

/// A step of a walk that nobody made.
fn forged(random: &mut Random, input: &Input) -> Call {
    let (length, width) = (input.bytes.len(), input.kind.width());
    let wrapping = usize::MAX - width - 41;
    let at = match random.below(12) {
        0 => *random.pick(&[0, 4, 11, 13, 1 << 32, usize::MAX, wrapping]),
        1 => (length + random.below(3)).saturating_sub(width + 1),
        2 => length + random.below(2),
        3..=5 => 12,
        6..=8 => 12 + 8 * random.below(length / 8 + 1),
        _ => random.below(length + 1),
    };
    let left = match random.below(4) {
        0 => 0,
        1 => u32::MAX,
        _ => 1 + random.below(3) as u32,
    };
    Call::WalkNext(at, left)
}
