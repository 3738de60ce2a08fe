//! Requests to rewrite and edit files, each with its answer. The answer follows from the way the request was made: it is
//! a refusal that is told by hand, or the changed records as `inputs::layout` lays them out. No library has a part in it.

mod drawn;
mod large;
pub(crate) mod records;
mod refusals;
mod results;
mod stages;
mod trees;
mod versions;

pub use drawn::drawn;
pub use large::LARGE;

use crate::comparison::{Answering, Reply};
use crate::index_file::LARGEST;
use crate::inputs::records::Records;
use crate::inputs::requests::Call;
use crate::kind::Kind;
use crate::replies::{WriteReply, WORKSPACE};
use records::{file, Change};
use std::panic::{catch_unwind, AssertUnwindSafe};
use std::sync::Arc;

/// The versions that can be asked for: 0 is 4, and 1 the lowest that the result can have.
const ASKED: [u32; 5] = [0, 1, 2, 3, 4];
/// The length of a workspace with bytes that stay untouched.
const WORK: usize = WORKSPACE + 100;
/// The length of an output that a refusal leaves as it was.
const UNTOUCHED: usize = 1000;

#[derive(Clone)]
pub struct Case {
    /// The number of the kind that it is asked with.
    pub kind: u32,
    pub name: String,
    pub file: Arc<Vec<u8>>,
    pub call: Call,
    pub work: usize,
    /// The length of the output, where the answer depends on more than that it is long enough.
    pub room: Option<usize>,
    pub answer: Answer,
}

#[derive(Clone, PartialEq)]
pub enum Answer {
    Written(Vec<u8>),
    /// A refusal and its place.
    Refused(u32, usize),
}

impl Answer {
    /// The reply that has this answer.
    pub fn reply(&self) -> Reply {
        let (refusal, place, length) = match self {
            Self::Written(bytes) => (0, 0, bytes.len()),
            Self::Refused(number, place) => (*number, *place, 0),
        };
        Reply::Write(WriteReply {
            refusal,
            place,
            length,
        })
    }
}

/// A group of cases, of a kind.
pub type Group = fn(Kind) -> Vec<Case>;

/// The cases without chance, by groups.
pub const GROUPS: [(&str, Group); 15] = [
    ("document", results::document),
    ("place", results::places),
    ("name", results::names),
    ("number", results::numbers),
    ("word", results::words),
    ("extension", results::extensions),
    ("checksum", results::checksums),
    ("tree", trees::whole),
    ("part of a tree", trees::parts),
    ("stage", stages::puts),
    ("mixed file", stages::files),
    ("version", versions::rewrites),
    ("version after an edit", versions::edits),
    ("order", refusals::orders),
    ("refusal", refusals::limits),
];

// ---- making cases

/// Each change of a file, in each version asked for.
fn in_versions(name: &str, before: &Records, changes: &[Change], asked: &[u32]) -> Vec<Case> {
    let file = Arc::new(file(before));
    let mut cases = Vec::new();
    for change in changes {
        for &asked in asked {
            cases.push(Case {
                kind: before.kind.number(),
                name: name.to_string(),
                file: file.clone(),
                call: change.call(asked),
                work: WORK,
                room: None,
                answer: change.answer(asked),
            });
        }
    }
    cases
}

/// The same requests on files whose checksum is left out. What is written has one all the same.
fn left_out(kind: Kind, cases: Vec<Case>) -> Vec<Case> {
    let without = |case: Case| Case {
        name: format!("{}, checksum left out", case.name),
        file: Arc::new(kind.left_out(kind.body(&case.file))),
        ..case
    };
    cases.into_iter().map(without).collect()
}

/// A request that is refused at place 0.
fn refused(kind: Kind, name: &str, file: &Arc<Vec<u8>>, call: Call, number: u32) -> Case {
    Case {
        kind: kind.number(),
        name: name.to_string(),
        file: file.clone(),
        call,
        work: WORK,
        room: None,
        answer: Answer::Refused(number, 0),
    }
}

// ---- testing a library

impl Case {
    /// The lengths of outputs to try, and the answers: exactly long enough, longer, and one byte short; an empty one and
    /// another where the answer is a refusal.
    pub fn rooms(&self) -> Vec<(usize, Answer)> {
        match (&self.answer, self.room) {
            (answer, Some(room)) => vec![(room, answer.clone())],
            (Answer::Written(bytes), None) => vec![
                (bytes.len(), self.answer.clone()),
                (bytes.len() + 9, self.answer.clone()),
                (bytes.len() - 1, Answer::Refused(20, 0)),
            ],
            (answer, None) => vec![(0, answer.clone()), (UNTOUCHED, answer.clone())],
        }
    }

    /// Whether a library gives the case's answers.
    fn answered(&self, by: Answering, work: &mut [u8], out: &mut [u8]) -> bool {
        let mut asked = |(room, answer): (usize, Answer)| {
            let (work, out) = (&mut work[..self.work], &mut out[..room]);
            let name = self.call.name();
            let reply = by(self.kind, &self.call, &self.file, name, work, out);
            reply == answer.reply()
                && match answer {
                    Answer::Written(bytes) => out[..bytes.len()] == bytes,
                    Answer::Refused(..) => true,
                }
        };
        self.rooms().into_iter().all(&mut asked)
    }
}

/// The first case that a library answers otherwise, or with a panic; those on large files, of a kind, come last.
pub fn first_difference(by: Answering, small: &[Case], kind: Kind) -> Option<String> {
    let (mut work, mut out) = (vec![0; 20_000], vec![0; LARGEST + 100]);
    let mut differs = |case: &Case| {
        let asked = AssertUnwindSafe(|| case.answered(by, &mut work, &mut out));
        !catch_unwind(asked).unwrap_or(false)
    };
    if let Some(case) = small.iter().find(|case| differs(case)) {
        return Some(format!("{}: {}", case.name, case.call));
    }
    let mut large = LARGE.iter().flat_map(|group| group(kind));
    let case = large.find(|case| differs(case))?;
    Some(format!("{}: {}", case.name, case.call))
}
