//! The exported functions with slices for pointers and lengths, and with replies as values.
//!
//! The functions of the crate's root are built on these and are what a program wants. Here the kind of object names and
//! the version that is asked for are plain numbers, as [`raw`] has them, so that the library's refusal of other numbers
//! can be reached.
//!
//! In a reply, `refusal` is 0 of a success, and all that does not apply is 0 or false: on a refusal, all but its number
//! and its place. Object names are of the kind that was asked with, and SHA-1 names where the library does not know it.

#![allow(unsafe_code)]

use crate::raw::{
    self, CheckReply, EntryReply, Fields, NodeReply, StartReply, StepReply, UndoReply, WriteReply,
    DIGEST, DIGEST_SHA256, OBJECT,
};
use crate::Kind;

/// A number that no kind has. The library refuses it with 29, after 19 and before it reads anything of the file.
const NO_KIND: u32 = 0;

/// Calls an exported function: each slice becomes its pointer and its length, a slice after `mut` a mutable one.
/// Numbers and arrays follow, the arrays by reference.
macro_rules! call {
    ($function:ident, $kind:ident, $file:ident $(, mut $lent:ident)*; $($value:expr),*) => {
        // SAFETY: each pointer and length belong to one slice, which is borrowed for the whole call, and each other
        // pointer is a reference to an array of its type. What is written is borrowed mutably, for it alone, so it
        // overlaps nothing. The library keeps no pointer.
        unsafe {
            raw::$function(
                $kind,
                $file.as_ptr(),
                $file.len(),
                $($lent.as_mut_ptr(), $lent.len(),)*
                $($value),*
            )
        }
    };
}

/// Checks an index.
#[inline]
pub fn check(kind: u32, file: &[u8], work: &mut [u8]) -> CheckReply {
    let mut reply = [0; 16];
    call!(nerupazhil_check, kind, file, mut work; &mut reply);
    CheckReply::of(reply)
}

/// Entry `k`.
#[inline]
pub fn entry(kind: u32, file: &[u8], work: &mut [u8], k: u32) -> EntryReply {
    let (mut reply, mut fields, mut object) = ([0; 5], [0; 14], [0; OBJECT]);
    call!(nerupazhil_entry, kind, file, mut work; k, &mut reply, &mut fields, &mut object);
    EntryReply::of(shown(kind), reply, fields, object)
}

/// Node `k` of the cache tree.
#[inline]
pub fn tree_node(kind: u32, file: &[u8], work: &mut [u8], k: u32) -> NodeReply {
    let (mut reply, mut object) = ([0; 9], [0; OBJECT]);
    call!(nerupazhil_tree_node, kind, file, mut work; k, &mut reply, &mut object);
    NodeReply::of(shown(kind), reply, object)
}

/// Resolve-undo record `k`.
#[inline]
pub fn undo_record(kind: u32, file: &[u8], work: &mut [u8], k: u32) -> UndoReply {
    let (mut reply, mut objects) = ([0; 8], [[0; OBJECT]; 3]);
    let [first, second, third] = &mut objects;
    call!(nerupazhil_undo_record, kind, file, mut work; k, &mut reply, first, second, third);
    UndoReply::of(shown(kind), reply, objects)
}

/// Writes the file's records in a version.
#[inline]
pub fn rewrite(kind: u32, file: &[u8], work: &mut [u8], out: &mut [u8], asked: u32) -> WriteReply {
    let mut reply = [0; 3];
    call!(nerupazhil_rewrite, kind, file, mut work, mut out; asked, &mut reply);
    WriteReply::of(reply)
}

/// The same with one entry put. It is refused with 29 where its object name is of another kind.
#[inline]
pub fn put(
    kind: u32,
    file: &[u8],
    work: &mut [u8],
    out: &mut [u8],
    asked: u32,
    name: &[u8],
    fields: Fields,
) -> WriteReply {
    let mut reply = [0; 3];
    let (numbers, object) = fields.lent();
    let kind = match fields.object.kind().number() == kind {
        true => kind,
        false => NO_KIND,
    };
    call!(
        nerupazhil_put, kind, file, mut work, mut out;
        asked, name.as_ptr(), name.len(), &numbers, &object, &mut reply
    );
    WriteReply::of(reply)
}

/// The same with one entry removed.
#[inline]
pub fn remove(
    kind: u32,
    file: &[u8],
    work: &mut [u8],
    out: &mut [u8],
    asked: u32,
    name: &[u8],
    stage: u32,
) -> WriteReply {
    let mut reply = [0; 3];
    call!(
        nerupazhil_remove, kind, file, mut work, mut out;
        asked, name.as_ptr(), name.len(), stage, &mut reply
    );
    WriteReply::of(reply)
}

/// Whether a walk can go over the file, and where it starts.
#[inline]
pub fn walk_start(kind: u32, file: &[u8], work: &mut [u8]) -> StartReply {
    let mut reply = [0; 4];
    call!(nerupazhil_walk_start, kind, file, mut work; &mut reply);
    StartReply::of(reply)
}

/// The next entry of a walk. On a refusal, `at` and `left` of the reply are 0: a walk does not go on from there.
#[inline]
pub fn walk_next(kind: u32, file: &[u8], at: usize, left: u32) -> StepReply {
    let (mut reply, mut fields, mut object) = ([0; 7], [0; 14], [0; OBJECT]);
    call!(nerupazhil_walk_next, kind, file; at, left, &mut reply, &mut fields, &mut object);
    StepReply::of(shown(kind), reply, fields, object)
}

/// The kind of the object names in a reply.
#[inline]
fn shown(kind: u32) -> Kind {
    Kind::of(kind).unwrap_or_default()
}

/// The SHA-1 digest of a message.
#[inline]
pub fn sha1(message: &[u8]) -> [u8; DIGEST] {
    let mut digest = [0; DIGEST];
    // SAFETY: the pointer and the length are those of a slice, and the digest is an array of its own.
    unsafe { raw::nerupazhil_sha1(message.as_ptr(), message.len(), &mut digest) };
    digest
}

/// The SHA-256 digest of a message.
#[inline]
pub fn sha256(message: &[u8]) -> [u8; DIGEST_SHA256] {
    let mut digest = [0; DIGEST_SHA256];
    // SAFETY: as of SHA-1.
    unsafe { raw::nerupazhil_sha256(message.as_ptr(), message.len(), &mut digest) };
    digest
}
