//! The calls of the crate, and their replies as the harness has them.

use harness::comparison::Reply;
use harness::inputs::requests::Call;
use harness::kind::{Kind, Object};
use harness::replies;
use nerupazhil::{calls, raw, ObjectName};

/// What the crate answers to a call.
pub fn by_crate(kind: Kind, call: &Call, file: &[u8], work: &mut [u8], out: &mut [u8]) -> Reply {
    let number = kind.number();
    match call {
        Call::Check => check(calls::check(number, file, work)),
        Call::Entry(k) => entry(calls::entry(number, file, work, *k)),
        Call::TreeNode(k) => node(calls::tree_node(number, file, work, *k)),
        Call::UndoRecord(k) => undo(calls::undo_record(number, file, work, *k)),
        Call::Rewrite(asked) => write(calls::rewrite(number, file, work, out, *asked)),
        Call::Put(asked, name, fields) => {
            let given = given(kind, fields);
            write(calls::put(number, file, work, out, *asked, name, given))
        }
        Call::Remove(asked, name, stage) => {
            write(calls::remove(number, file, work, out, *asked, name, *stage))
        }
        Call::WalkStart => start(calls::walk_start(number, file, work)),
        Call::WalkNext(at, left) => step(calls::walk_next(number, file, *at, *left)),
        Call::Hash(kind) => Reply::Digest(*kind, digest(*kind, file)),
    }
}

fn digest(kind: Kind, file: &[u8]) -> Object {
    match kind {
        Kind::Sha1 => kind.object(&calls::sha1(file)),
        Kind::Sha256 => kind.object(&calls::sha256(file)),
    }
}

/// The bytes of an object name, and zeros after them.
fn object(name: ObjectName) -> Object {
    let mut object = Object::default();
    object[..name.as_bytes().len()].copy_from_slice(name.as_bytes());
    object
}

fn name(name: raw::Name) -> replies::Name {
    replies::Name {
        buffer: name.buffer,
        offset: name.offset,
        length: name.length,
    }
}

fn fields(fields: raw::Fields) -> replies::Fields {
    replies::Fields {
        ctime_seconds: fields.ctime_seconds,
        ctime_nanoseconds: fields.ctime_nanoseconds,
        mtime_seconds: fields.mtime_seconds,
        mtime_nanoseconds: fields.mtime_nanoseconds,
        dev: fields.dev,
        ino: fields.ino,
        mode: fields.mode,
        uid: fields.uid,
        gid: fields.gid,
        size: fields.size,
        object: object(fields.object),
        assume_valid: fields.assume_valid,
        stage: fields.stage,
        skip_worktree: fields.skip_worktree,
        intent_to_add: fields.intent_to_add,
    }
}

/// The fields as the crate takes them.
fn given(kind: Kind, fields: &replies::Fields) -> raw::Fields {
    let object = ObjectName::try_from(&fields.object[..kind.width()]).expect("an object name");
    raw::Fields {
        ctime_seconds: fields.ctime_seconds,
        ctime_nanoseconds: fields.ctime_nanoseconds,
        mtime_seconds: fields.mtime_seconds,
        mtime_nanoseconds: fields.mtime_nanoseconds,
        dev: fields.dev,
        ino: fields.ino,
        mode: fields.mode,
        uid: fields.uid,
        gid: fields.gid,
        size: fields.size,
        object,
        assume_valid: fields.assume_valid,
        stage: fields.stage,
        skip_worktree: fields.skip_worktree,
        intent_to_add: fields.intent_to_add,
    }
}

fn check(reply: raw::CheckReply) -> Reply {
    Reply::Check(replies::CheckReply {
        refusal: reply.refusal,
        version: reply.version,
        place: reply.place,
        end: reply.end,
        entries: reply.entries,
        nodes: reply.nodes,
        records: reply.records,
        has_tree: reply.has_tree,
        has_undo: reply.has_undo,
        checksum_left_out: reply.checksum_left_out,
    })
}

fn entry(reply: raw::EntryReply) -> Reply {
    Reply::Entry(replies::EntryReply {
        refusal: reply.refusal,
        place: reply.place,
        name: name(reply.name),
        fields: fields(reply.fields),
    })
}

fn node(reply: raw::NodeReply) -> Reply {
    Reply::Node(replies::NodeReply {
        refusal: reply.refusal,
        place: reply.place,
        name: name(reply.name),
        level: reply.level,
        count: reply.count,
        subtrees: reply.subtrees,
        valid: reply.valid,
        object: object(reply.object),
    })
}

fn undo(reply: raw::UndoReply) -> Reply {
    let stages = [reply.first, reply.second, reply.third];
    Reply::Undo(replies::UndoReply {
        refusal: reply.refusal,
        place: reply.place,
        path: name(reply.path),
        stages: stages.map(|stage| replies::Stage {
            mode: stage.mode,
            object: object(stage.object),
        }),
    })
}

fn write(reply: raw::WriteReply) -> Reply {
    Reply::Write(replies::WriteReply {
        refusal: reply.refusal,
        place: reply.place,
        length: reply.length,
    })
}

fn start(reply: raw::StartReply) -> Reply {
    Reply::Start(replies::StartReply {
        refusal: reply.refusal,
        place: reply.place,
        at: reply.at,
        left: reply.left,
    })
}

fn step(reply: raw::StepReply) -> Reply {
    Reply::Step(replies::StepReply {
        refusal: reply.refusal,
        place: reply.place,
        name: name(reply.name),
        fields: fields(reply.fields),
        at: reply.at,
        left: reply.left,
    })
}
