//! The exported functions of the proved library, as C sees them, and their replies, as the functions of
//! [`calls`](crate::calls) answer them.
//!
//! An exported function takes the kind of object names first: [`SHA1`] or [`SHA256`]. A slice is a pointer and a length,
//! where a null pointer with length 0 is an empty one. A reply is written, whole, to arrays that the caller lends: of
//! numbers for the reply itself and for the fields of an entry, and of [`OBJECT`] bytes for an object name, of which the
//! last 12 are zero for SHA-1. `c/include/nerupazhil.h` says what each number is. The first is 0 of a success or else
//! the number of the refusal, the second its place, and all that does not apply is 0.
//!
//! Tests compare these declarations with the Rattle source and with the header.

use crate::ObjectName;

/// The kind of object names that are SHA-1 digests.
pub const SHA1: u32 = 1;

/// The kind of object names that are SHA-256 digests. Any other number is refused with 29.
pub const SHA256: u32 = 2;

/// The default among the versions that may be asked for: version 4 is written. The others are [`VERSION_LOWEST`] and the
/// versions 2, 3 and 4 by their own numbers; a number above 4 is refused with 4.
pub const VERSION_DEFAULT: u32 = 0;

/// The lowest version that will do: 2 where no entry of the result needs the extended word, else 3.
pub const VERSION_LOWEST: u32 = 1;

/// The number of bytes of a SHA-1 digest, and of an object name that is one.
pub const DIGEST: usize = 20;

/// The number of bytes of a SHA-256 digest, and of an object name that is one.
pub const DIGEST_SHA256: usize = 32;

/// The number of bytes that are lent for an object name of either kind.
pub const OBJECT: usize = 32;

/// The least number of bytes of a workspace.
pub const WORKSPACE: usize = 8192;

/// The reply of check.
#[derive(Clone, Copy, Debug, Default, PartialEq, Eq)]
pub struct CheckReply {
    /// 0, or the number of the refusal.
    pub refusal: u32,
    /// 2, 3 or 4.
    pub version: u32,
    /// The place of the refusal.
    pub place: usize,
    /// The byte where the entries end.
    pub end: usize,
    /// How many entries there are.
    pub entries: u32,
    /// How many nodes the cache tree has.
    pub nodes: u32,
    /// How many resolve-undo records there are.
    pub records: u32,
    /// Whether the file has a cache tree.
    pub has_tree: bool,
    /// Whether the file has the extension of resolve undo.
    pub has_undo: bool,
    /// Whether the checksum was left out: zeros are in its place.
    pub checksum_left_out: bool,
}

/// Where a name is: `buffer` is 1 for the file, 2 for the workspace, 0 for none. It lies in its buffer, also where it
/// is empty: `offset + length` is at most the buffer's length.
#[derive(Clone, Copy, Debug, Default, PartialEq, Eq)]
pub struct Name {
    /// 1 for the file, 2 for the workspace, 0 for none.
    pub buffer: u32,
    /// Where it begins there.
    pub offset: usize,
    /// How many bytes it has.
    pub length: usize,
}

/// The fields of an entry but its name. The mode and the stage are checked; the other numbers take any value.
#[derive(Clone, Copy, Debug, Default, PartialEq, Eq)]
pub struct Fields {
    /// When the metadata of the file in the worktree last changed: seconds.
    pub ctime_seconds: u32,
    /// The nanoseconds of that.
    pub ctime_nanoseconds: u32,
    /// When the file in the worktree last changed: seconds.
    pub mtime_seconds: u32,
    /// The nanoseconds of that.
    pub mtime_nanoseconds: u32,
    /// The number of the device.
    pub dev: u32,
    /// The number of the inode.
    pub ino: u32,
    /// 0o100644, 0o100755, 0o120000 or 0o160000.
    pub mode: u32,
    /// The number of the user.
    pub uid: u32,
    /// The number of the group.
    pub gid: u32,
    /// The number of bytes of the file in the worktree, modulo 2^32.
    pub size: u32,
    /// The name of the object.
    pub object: ObjectName,
    /// Whether Git is to take the file in the worktree for unchanged.
    pub assume_valid: bool,
    /// 0, or 1 to 3 of a merge that is not resolved.
    pub stage: u32,
    /// Whether the file is left out of the worktree.
    pub skip_worktree: bool,
    /// Whether the file will be added later.
    pub intent_to_add: bool,
}

/// The reply of entry.
#[derive(Clone, Copy, Debug, Default, PartialEq, Eq)]
pub struct EntryReply {
    /// 0, or the number of the refusal.
    pub refusal: u32,
    /// The place of the refusal.
    pub place: usize,
    /// Where the name is.
    pub name: Name,
    /// The other fields.
    pub fields: Fields,
}

/// The reply of tree_node. An invalid node has count 0 and zeros for its object name.
#[derive(Clone, Copy, Debug, Default, PartialEq, Eq)]
pub struct NodeReply {
    /// 0, or the number of the refusal.
    pub refusal: u32,
    /// The place of the refusal.
    pub place: usize,
    /// Where the name is.
    pub name: Name,
    /// The level, 1 of the root.
    pub level: u32,
    /// How many entries the directory has.
    pub count: u32,
    /// How many subtrees the node has.
    pub subtrees: u32,
    /// Whether the count and the object name are known.
    pub valid: bool,
    /// The name of the tree object.
    pub object: ObjectName,
}

/// A stage of a resolve-undo record: mode 0 and zeros where it is missing.
#[derive(Clone, Copy, Debug, Default, PartialEq, Eq)]
pub struct Stage {
    /// The mode.
    pub mode: u32,
    /// The name of the object.
    pub object: ObjectName,
}

/// The reply of undo_record.
#[derive(Clone, Copy, Debug, Default, PartialEq, Eq)]
pub struct UndoReply {
    /// 0, or the number of the refusal.
    pub refusal: u32,
    /// The place of the refusal.
    pub place: usize,
    /// Where the path is.
    pub path: Name,
    /// Stage 1.
    pub first: Stage,
    /// Stage 2.
    pub second: Stage,
    /// Stage 3.
    pub third: Stage,
}

/// The reply of rewrite, put and remove: how many bytes were written.
#[derive(Clone, Copy, Debug, Default, PartialEq, Eq)]
pub struct WriteReply {
    /// 0, or the number of the refusal.
    pub refusal: u32,
    /// The place of the refusal.
    pub place: usize,
    /// How many bytes were written.
    pub length: usize,
}

/// The reply of walk_start: the place of the first entry and how many there are.
#[derive(Clone, Copy, Debug, Default, PartialEq, Eq)]
pub struct StartReply {
    /// 0, or the number of the refusal.
    pub refusal: u32,
    /// The place of the refusal.
    pub place: usize,
    /// The place of the first entry.
    pub at: usize,
    /// How many entries there are.
    pub left: u32,
}

/// The reply of walk_next: an entry, the place after it and how many remain there. A refusal has zeros for both.
#[derive(Clone, Copy, Debug, Default, PartialEq, Eq)]
pub struct StepReply {
    /// 0, or the number of the refusal.
    pub refusal: u32,
    /// The place of the refusal.
    pub place: usize,
    /// Where the name is.
    pub name: Name,
    /// The other fields.
    pub fields: Fields,
    /// The place after the entry.
    pub at: usize,
    /// How many entries remain there.
    pub left: u32,
}

extern "C" {
    /// Checks the file. The reply: refusal, place, version, entries, end, whether there is a cache tree, its nodes,
    /// whether there is a resolve-undo extension, its records, whether the checksum was left out, and six numbers that
    /// are 0.
    pub fn nerupazhil_check(
        kind: u32,
        file: *const u8,
        file_length: usize,
        work: *mut u8,
        work_length: usize,
        reply: *mut [u64; 16],
    );

    /// Entry `k`, from 0. A name of version 4 is left at the start of the workspace. The reply: refusal, place, and
    /// the name's buffer, offset and length.
    pub fn nerupazhil_entry(
        kind: u32,
        file: *const u8,
        file_length: usize,
        work: *mut u8,
        work_length: usize,
        k: u32,
        reply: *mut [u64; 5],
        fields: *mut [u32; 14],
        object: *mut [u8; 32],
    );

    /// Node `k` of the cache tree, from 0. The reply: refusal, place, the name's buffer, offset and length, level,
    /// whether it is valid, count, subtrees.
    pub fn nerupazhil_tree_node(
        kind: u32,
        file: *const u8,
        file_length: usize,
        work: *mut u8,
        work_length: usize,
        k: u32,
        reply: *mut [u64; 9],
        object: *mut [u8; 32],
    );

    /// Resolve-undo record `k`, from 0. The reply: refusal, place, the path's buffer, offset and length, and the modes
    /// of stages 1, 2 and 3.
    pub fn nerupazhil_undo_record(
        kind: u32,
        file: *const u8,
        file_length: usize,
        work: *mut u8,
        work_length: usize,
        k: u32,
        reply: *mut [u64; 8],
        first: *mut [u8; 32],
        second: *mut [u8; 32],
        third: *mut [u8; 32],
    );

    /// Writes the file's records in the version asked for to `out`. The reply: refusal, place, and how many bytes were
    /// written.
    pub fn nerupazhil_rewrite(
        kind: u32,
        file: *const u8,
        file_length: usize,
        work: *mut u8,
        work_length: usize,
        out: *mut u8,
        out_length: usize,
        asked: u32,
        reply: *mut [u64; 3],
    );

    /// The same with one entry in place of the one of its name and stage, or added.
    pub fn nerupazhil_put(
        kind: u32,
        file: *const u8,
        file_length: usize,
        work: *mut u8,
        work_length: usize,
        out: *mut u8,
        out_length: usize,
        asked: u32,
        name: *const u8,
        name_length: usize,
        fields: *const [u32; 14],
        object: *const [u8; 32],
        reply: *mut [u64; 3],
    );

    /// The same without the entry of a name and stage.
    pub fn nerupazhil_remove(
        kind: u32,
        file: *const u8,
        file_length: usize,
        work: *mut u8,
        work_length: usize,
        out: *mut u8,
        out_length: usize,
        asked: u32,
        name: *const u8,
        name_length: usize,
        stage: u32,
        reply: *mut [u64; 3],
    );

    /// Whether a walk can go over the file, and where it starts. The reply: refusal, place, the place of the first
    /// entry, and how many there are.
    pub fn nerupazhil_walk_start(
        kind: u32,
        file: *const u8,
        file_length: usize,
        work: *mut u8,
        work_length: usize,
        reply: *mut [u64; 4],
    );

    /// The next entry of a walk at a place, where `left` remain. The reply: refusal, place, the name's buffer, offset
    /// and length, the place after the entry, and how many remain there.
    pub fn nerupazhil_walk_next(
        kind: u32,
        file: *const u8,
        file_length: usize,
        at: usize,
        left: u32,
        reply: *mut [u64; 7],
        fields: *mut [u32; 14],
        object: *mut [u8; 32],
    );

    /// Writes the SHA-1 digest of the bytes to `out`.
    pub fn nerupazhil_sha1(bytes: *const u8, length: usize, out: *mut [u8; DIGEST]);

    /// Writes the SHA-256 digest of the bytes to `out`.
    pub fn nerupazhil_sha256(bytes: *const u8, length: usize, out: *mut [u8; DIGEST_SHA256]);
}
