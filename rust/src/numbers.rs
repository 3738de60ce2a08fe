//! The arrays of the boundary: replies from the numbers that a call has written, and the fields of an entry as numbers.
//!
//! Each number is known by its place in its array, as `c/include/nerupazhil.h` has them.

use crate::raw::{
    CheckReply, EntryReply, Fields, Name, NodeReply, Stage, StartReply, StepReply, UndoReply,
    WriteReply, OBJECT,
};
use crate::{Kind, ObjectName};

#[cfg(not(target_pointer_width = "64"))]
compile_error!(
    "nerupazhil is for targets with 64-bit pointers: its replies have places of 64 bits"
);

// ---- single numbers

/// A place or a length. Nothing is lost: a usize has 64 bits here.
#[inline]
fn wide(number: u64) -> usize {
    number as usize
}

/// A number that has 32 bits in the library. It is proved to stay below 2^32; nothing here rests on that.
#[inline]
fn narrow(number: u64) -> u32 {
    u32::try_from(number).expect("the library answered a number of more than 32 bits")
}

/// Whether a number says yes.
#[inline]
fn yes(number: u64) -> bool {
    number != 0
}

// ---- replies

impl CheckReply {
    #[inline]
    pub(crate) fn of(reply: [u64; 16]) -> Self {
        let [refusal, place, version, entries, end, has_tree, nodes, has_undo, records, left_out, ..] =
            reply;
        Self {
            refusal: narrow(refusal),
            version: narrow(version),
            place: wide(place),
            end: wide(end),
            entries: narrow(entries),
            nodes: narrow(nodes),
            records: narrow(records),
            has_tree: yes(has_tree),
            has_undo: yes(has_undo),
            checksum_left_out: yes(left_out),
        }
    }
}

impl Name {
    #[inline]
    fn of(buffer: u64, offset: u64, length: u64) -> Self {
        Self {
            buffer: narrow(buffer),
            offset: wide(offset),
            length: wide(length),
        }
    }
}

impl Fields {
    #[inline]
    fn of(kind: Kind, numbers: [u32; 14], object: [u8; OBJECT]) -> Self {
        Self {
            ctime_seconds: numbers[0],
            ctime_nanoseconds: numbers[1],
            mtime_seconds: numbers[2],
            mtime_nanoseconds: numbers[3],
            dev: numbers[4],
            ino: numbers[5],
            mode: numbers[6],
            uid: numbers[7],
            gid: numbers[8],
            size: numbers[9],
            object: ObjectName::of(kind, object),
            assume_valid: numbers[10] != 0,
            stage: numbers[11],
            skip_worktree: numbers[12] != 0,
            intent_to_add: numbers[13] != 0,
        }
    }

    /// The arrays by which the library is given these fields.
    #[inline]
    pub(crate) fn lent(&self) -> ([u32; 14], [u8; OBJECT]) {
        let numbers = [
            self.ctime_seconds,
            self.ctime_nanoseconds,
            self.mtime_seconds,
            self.mtime_nanoseconds,
            self.dev,
            self.ino,
            self.mode,
            self.uid,
            self.gid,
            self.size,
            u32::from(self.assume_valid),
            self.stage,
            u32::from(self.skip_worktree),
            u32::from(self.intent_to_add),
        ];
        (numbers, self.object.lent())
    }
}

impl EntryReply {
    #[inline]
    pub(crate) fn of(kind: Kind, reply: [u64; 5], fields: [u32; 14], object: [u8; OBJECT]) -> Self {
        let [refusal, place, buffer, offset, length] = reply;
        Self {
            refusal: narrow(refusal),
            place: wide(place),
            name: Name::of(buffer, offset, length),
            fields: Fields::of(kind, fields, object),
        }
    }
}

impl NodeReply {
    #[inline]
    pub(crate) fn of(kind: Kind, reply: [u64; 9], object: [u8; OBJECT]) -> Self {
        let [refusal, place, buffer, offset, length, level, valid, count, subtrees] = reply;
        Self {
            refusal: narrow(refusal),
            place: wide(place),
            name: Name::of(buffer, offset, length),
            level: narrow(level),
            count: narrow(count),
            subtrees: narrow(subtrees),
            valid: yes(valid),
            object: ObjectName::of(kind, object),
        }
    }
}

impl Stage {
    #[inline]
    fn of(kind: Kind, mode: u64, object: [u8; OBJECT]) -> Self {
        Self {
            mode: narrow(mode),
            object: ObjectName::of(kind, object),
        }
    }
}

impl UndoReply {
    #[inline]
    pub(crate) fn of(kind: Kind, reply: [u64; 8], objects: [[u8; OBJECT]; 3]) -> Self {
        let [refusal, place, buffer, offset, length, first_mode, second_mode, third_mode] = reply;
        let [first, second, third] = objects;
        Self {
            refusal: narrow(refusal),
            place: wide(place),
            path: Name::of(buffer, offset, length),
            first: Stage::of(kind, first_mode, first),
            second: Stage::of(kind, second_mode, second),
            third: Stage::of(kind, third_mode, third),
        }
    }
}

impl WriteReply {
    #[inline]
    pub(crate) fn of([refusal, place, length]: [u64; 3]) -> Self {
        Self {
            refusal: narrow(refusal),
            place: wide(place),
            length: wide(length),
        }
    }
}

impl StartReply {
    #[inline]
    pub(crate) fn of([refusal, place, at, left]: [u64; 4]) -> Self {
        Self {
            refusal: narrow(refusal),
            place: wide(place),
            at: wide(at),
            left: narrow(left),
        }
    }
}

impl StepReply {
    #[inline]
    pub(crate) fn of(kind: Kind, reply: [u64; 7], fields: [u32; 14], object: [u8; OBJECT]) -> Self {
        let [refusal, place, buffer, offset, length, at, left] = reply;
        Self {
            refusal: narrow(refusal),
            place: wide(place),
            name: Name::of(buffer, offset, length),
            fields: Fields::of(kind, fields, object),
            at: wide(at),
            left: narrow(left),
        }
    }
}
