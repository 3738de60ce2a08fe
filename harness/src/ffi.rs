//! The calls of the proved library, with slices for pointers and lengths and with replies as values. The first argument
//! is the number of a kind.

use crate::kind::{Kind, Object, OBJECT};
use crate::replies::{
    CheckReply, EntryReply, Fields, Name, NodeReply, Stage, StartReply, StepReply, UndoReply,
    WriteReply,
};
use nerupazhil::raw;

/// Calls an exported function: each slice becomes its pointer and its length, a slice after `mut` a mutable one.
/// Numbers and arrays follow, the arrays by reference.
macro_rules! call {
    ($function:ident, $kind:ident, $file:ident $(, mut $lent:ident)*; $($value:expr),*) => {
        // SAFETY: each pointer and length belong to one slice, and each other pointer is a reference to an array of its
        // type. What is written is borrowed mutably, so it overlaps nothing.
        unsafe {
            raw::$function(
                $kind,
                $file.as_ptr(),
                $file.len(),
                $($lent.as_mut_ptr(), $lent.len(),)*
                $($value),*
            )
        }
    };
}

/// Checks an index.
pub fn check(kind: u32, file: &[u8], work: &mut [u8]) -> CheckReply {
    let mut reply = [0; 16];
    call!(nerupazhil_check, kind, file, mut work; &mut reply);
    let [refusal, place, version, entries, end, has_tree, nodes, has_undo, records, left_out, ..] =
        reply;
    CheckReply {
        refusal: refusal as u32,
        version: version as u32,
        place: place as usize,
        end: end as usize,
        entries: entries as u32,
        nodes: nodes as u32,
        records: records as u32,
        has_tree: has_tree != 0,
        has_undo: has_undo != 0,
        checksum_left_out: left_out != 0,
    }
}

/// Entry `k`.
pub fn entry(kind: u32, file: &[u8], work: &mut [u8], k: u32) -> EntryReply {
    let (mut reply, mut fields, mut object) = ([0; 5], [0; 14], [0; OBJECT]);
    call!(nerupazhil_entry, kind, file, mut work; k, &mut reply, &mut fields, &mut object);
    let [refusal, place, name @ ..] = reply;
    EntryReply {
        refusal: refusal as u32,
        place: place as usize,
        name: name_of(name),
        fields: fields_of(fields, object),
    }
}

/// Node `k` of the cache tree.
pub fn tree_node(kind: u32, file: &[u8], work: &mut [u8], k: u32) -> NodeReply {
    let (mut reply, mut object) = ([0; 9], [0; OBJECT]);
    call!(nerupazhil_tree_node, kind, file, mut work; k, &mut reply, &mut object);
    let [refusal, place, buffer, offset, length, level, valid, count, subtrees] = reply;
    NodeReply {
        refusal: refusal as u32,
        place: place as usize,
        name: name_of([buffer, offset, length]),
        level: level as u32,
        count: count as u32,
        subtrees: subtrees as u32,
        valid: valid != 0,
        object,
    }
}

/// Resolve-undo record `k`.
pub fn undo_record(kind: u32, file: &[u8], work: &mut [u8], k: u32) -> UndoReply {
    let (mut reply, mut objects) = ([0; 8], [[0; OBJECT]; 3]);
    let [first, second, third] = &mut objects;
    call!(nerupazhil_undo_record, kind, file, mut work; k, &mut reply, first, second, third);
    let [refusal, place, buffer, offset, length, modes @ ..] = reply;
    let stage = |k: usize| Stage {
        mode: modes[k] as u32,
        object: objects[k],
    };
    UndoReply {
        refusal: refusal as u32,
        place: place as usize,
        path: name_of([buffer, offset, length]),
        stages: [0, 1, 2].map(stage),
    }
}

/// Writes the file's records in a version.
pub fn rewrite(kind: u32, file: &[u8], work: &mut [u8], out: &mut [u8], asked: u32) -> WriteReply {
    let mut reply = [0; 3];
    call!(nerupazhil_rewrite, kind, file, mut work, mut out; asked, &mut reply);
    write_reply(reply)
}

/// The same with one entry put.
pub fn put(
    kind: u32,
    file: &[u8],
    work: &mut [u8],
    out: &mut [u8],
    asked: u32,
    name: &[u8],
    fields: Fields,
) -> WriteReply {
    let mut reply = [0; 3];
    let numbers = fields.numbers(1);
    call!(
        nerupazhil_put, kind, file, mut work, mut out;
        asked, name.as_ptr(), name.len(), &numbers, &fields.object, &mut reply
    );
    write_reply(reply)
}

/// The same with one entry removed.
pub fn remove(
    kind: u32,
    file: &[u8],
    work: &mut [u8],
    out: &mut [u8],
    asked: u32,
    name: &[u8],
    stage: u32,
) -> WriteReply {
    let mut reply = [0; 3];
    call!(
        nerupazhil_remove, kind, file, mut work, mut out;
        asked, name.as_ptr(), name.len(), stage, &mut reply
    );
    write_reply(reply)
}

/// Whether a walk can go over the file, and where it starts.
pub fn walk_start(kind: u32, file: &[u8], work: &mut [u8]) -> StartReply {
    let mut reply = [0; 4];
    call!(nerupazhil_walk_start, kind, file, mut work; &mut reply);
    let [refusal, place, at, left] = reply;
    StartReply {
        refusal: refusal as u32,
        place: place as usize,
        at: at as usize,
        left: left as u32,
    }
}

/// The next entry of a walk.
pub fn walk_next(kind: u32, file: &[u8], at: usize, left: u32) -> StepReply {
    let (mut reply, mut fields, mut object) = ([0; 7], [0; 14], [0; OBJECT]);
    call!(nerupazhil_walk_next, kind, file; at, left, &mut reply, &mut fields, &mut object);
    let [refusal, place, buffer, offset, length, at, left] = reply;
    StepReply {
        refusal: refusal as u32,
        place: place as usize,
        name: name_of([buffer, offset, length]),
        fields: fields_of(fields, object),
        at: at as usize,
        left: left as u32,
    }
}

// ---- numbers of replies

fn name_of([buffer, offset, length]: [u64; 3]) -> Name {
    Name {
        buffer: buffer as u32,
        offset: offset as usize,
        length: length as usize,
    }
}

fn fields_of(numbers: [u32; 14], object: Object) -> Fields {
    Fields {
        ctime_seconds: numbers[0],
        ctime_nanoseconds: numbers[1],
        mtime_seconds: numbers[2],
        mtime_nanoseconds: numbers[3],
        dev: numbers[4],
        ino: numbers[5],
        mode: numbers[6],
        uid: numbers[7],
        gid: numbers[8],
        size: numbers[9],
        object,
        assume_valid: numbers[10] != 0,
        stage: numbers[11],
        skip_worktree: numbers[12] != 0,
        intent_to_add: numbers[13] != 0,
    }
}

fn write_reply([refusal, place, length]: [u64; 3]) -> WriteReply {
    WriteReply {
        refusal: refusal as u32,
        place: place as usize,
        length: length as usize,
    }
}

// ---- the hash functions

/// An exported hash function: the kind whose names it gives, and its call with a message, its length and room for the
/// digest, which has the kind's width.
pub struct Hash {
    pub kind: Kind,
    pub call: unsafe fn(*const u8, usize, *mut u8),
}

/// The hash functions that the library exports.
pub const HASHES: &[Hash] = &[
    Hash {
        kind: Kind::Sha1,
        call: |bytes, length, out| unsafe { raw::nerupazhil_sha1(bytes, length, out.cast()) },
    },
    Hash {
        kind: Kind::Sha256,
        call: |bytes, length, out| unsafe { raw::nerupazhil_sha256(bytes, length, out.cast()) },
    },
];

impl Hash {
    /// The exported hash function of a kind, where there is one.
    pub fn of(kind: Kind) -> Option<&'static Self> {
        HASHES.iter().find(|hash| hash.kind == kind)
    }

    /// The digest of a message, with zeros after it.
    pub fn digest(&self, message: &[u8]) -> Object {
        let mut digest = [0; OBJECT];
        // SAFETY: the pointer and the length are those of a slice, and no digest has more bytes.
        unsafe { (self.call)(message.as_ptr(), message.len(), digest.as_mut_ptr()) };
        digest
    }
}
