//! A second library for the index file in plain Rust, written from document 01 and requests 1, 2, 7 and 10 of document 02
//! alone: it shares nothing with the proved one. The calls have the signatures of `ffi`, so that answers, workspaces and
//! outputs can be compared; `check` is also what the speed of the proved check is measured against.

mod counts;
mod entries;
mod names;
mod refusal;
mod tree;
mod undo;
mod whole;
mod write;

use crate::kind::Kind;
use crate::replies::{
    CheckReply, EntryReply, Fields, Name, NodeReply, StartReply, StepReply, UndoReply, WriteReply,
    WORKSPACE,
};
use entries::{Entries, HEADER};
use refusal::Refusal;
use whole::{Checksum, Contents};
use write::Change;

/// Checks an index.
pub fn check(kind: u32, file: &[u8], work: &mut [u8]) -> CheckReply {
    match open(kind, file, work) {
        Ok(contents) => CheckReply {
            version: contents.entries.version,
            end: contents.entries.end,
            entries: contents.entries.items.len() as u32,
            nodes: contents.tree.as_ref().map_or(0, |tree| tree.nodes.len()) as u32,
            records: contents.undo.as_ref().map_or(0, |undo| undo.records),
            has_tree: contents.tree.is_some(),
            has_undo: contents.undo.is_some(),
            checksum_left_out: contents.checksum == Checksum::LeftOut,
            ..CheckReply::default()
        },
        Err(Refusal { number, place }) => CheckReply {
            refusal: number,
            place,
            ..CheckReply::default()
        },
    }
}

/// Entry `k`.
pub fn entry(kind: u32, file: &[u8], work: &mut [u8], k: u32) -> EntryReply {
    let shown = open(kind, file, work).and_then(|contents| show_entry(&contents.entries, work, k));
    shown.unwrap_or_else(|Refusal { number, place }| EntryReply {
        refusal: number,
        place,
        ..EntryReply::default()
    })
}

/// Node `k` of the cache tree.
pub fn tree_node(kind: u32, file: &[u8], work: &mut [u8], k: u32) -> NodeReply {
    let shown = open(kind, file, work).and_then(|contents| show_node(&contents, k));
    shown.unwrap_or_else(|Refusal { number, place }| NodeReply {
        refusal: number,
        place,
        ..NodeReply::default()
    })
}

/// Resolve-undo record `k`.
pub fn undo_record(kind: u32, file: &[u8], work: &mut [u8], k: u32) -> UndoReply {
    let shown = open(kind, file, work).and_then(|contents| show_record(file, &contents, k));
    shown.unwrap_or_else(|Refusal { number, place }| UndoReply {
        refusal: number,
        place,
        ..UndoReply::default()
    })
}

/// Writes the file's records in the version asked for: 2, 3 or 4, 0 for 4, 1 for the lowest that they can have.
pub fn rewrite(kind: u32, file: &[u8], work: &mut [u8], out: &mut [u8], asked: u32) -> WriteReply {
    edit(kind, file, work, out, asked, None)
}

/// The same with one entry put.
pub fn put(
    kind: u32,
    file: &[u8],
    work: &mut [u8],
    out: &mut [u8],
    asked: u32,
    name: &[u8],
    fields: Fields,
) -> WriteReply {
    let change = Change {
        name,
        stage: fields.stage,
        put: Some(fields),
    };
    edit(kind, file, work, out, asked, Some(change))
}

/// The same with one entry removed.
pub fn remove(
    kind: u32,
    file: &[u8],
    work: &mut [u8],
    out: &mut [u8],
    asked: u32,
    name: &[u8],
    stage: u32,
) -> WriteReply {
    let put = None;
    edit(
        kind,
        file,
        work,
        out,
        asked,
        Some(Change { name, stage, put }),
    )
}

/// Whether a walk can go over the file, and where it starts.
pub fn walk_start(kind: u32, file: &[u8], work: &mut [u8]) -> StartReply {
    let started = open(kind, file, work).and_then(|contents| match contents.entries.version {
        4 => Err(Refusal::whole(refusal::VERSION)),
        _ => Ok(contents.entries.items.len() as u32),
    });
    match started {
        Ok(left) => StartReply {
            at: HEADER,
            left,
            ..StartReply::default()
        },
        Err(Refusal { number, place }) => StartReply {
            refusal: number,
            place,
            ..StartReply::default()
        },
    }
}

/// The next entry of a walk.
pub fn walk_next(kind: u32, file: &[u8], at: usize, left: u32) -> StepReply {
    match step(kind, file, at, left) {
        Ok((name, fields, at)) => StepReply {
            name,
            fields,
            at,
            left: left - 1,
            ..StepReply::default()
        },
        Err(Refusal { number, place }) => StepReply {
            refusal: number,
            place,
            ..StepReply::default()
        },
    }
}

/// What the file holds, with the start of the workspace zeroed.
fn open<'a>(kind: u32, file: &'a [u8], work: &mut [u8]) -> Result<Contents<'a>, Refusal> {
    let start = work
        .get_mut(..WORKSPACE)
        .ok_or(Refusal::whole(refusal::WORKSPACE_SMALL))?;
    start.fill(0);
    whole::read(kind_of(kind)?, file)
}

fn kind_of(number: u32) -> Result<Kind, Refusal> {
    Kind::of(number).ok_or(Refusal::whole(refusal::KIND))
}

fn edit(
    kind: u32,
    file: &[u8],
    work: &mut [u8],
    out: &mut [u8],
    asked: u32,
    change: Option<Change>,
) -> WriteReply {
    let opened = open(kind, file, work);
    let written = opened.and_then(|contents| write::edit(contents, out, asked, change));
    match written {
        Ok(length) => WriteReply {
            length,
            ..WriteReply::default()
        },
        Err(Refusal { number, place }) => WriteReply {
            refusal: number,
            place,
            ..WriteReply::default()
        },
    }
}

fn show_entry(entries: &Entries, work: &mut [u8], k: u32) -> Result<EntryReply, Refusal> {
    let item = entries.items.get(k as usize).ok_or(Refusal::absent())?;
    let name = if entries.version == 4 {
        let name = entries.name_of(k as usize);
        work[..name.len()].copy_from_slice(&name);
        Name {
            buffer: 2,
            offset: 0,
            length: name.len(),
        }
    } else {
        in_file(item.start, item.length)
    };
    Ok(EntryReply {
        name,
        fields: entries.fields(item),
        ..EntryReply::default()
    })
}

fn show_node(contents: &Contents, k: u32) -> Result<NodeReply, Refusal> {
    let tree = contents.tree.as_ref().ok_or(Refusal::absent())?;
    let node = tree.nodes.get(k as usize).ok_or(Refusal::absent())?;
    Ok(NodeReply {
        name: in_file(node.place, node.length),
        level: node.level as u32,
        count: node.count.unwrap_or(0),
        subtrees: node.subtrees.len() as u32,
        valid: node.count.is_some(),
        object: tree.object(node),
        ..NodeReply::default()
    })
}

fn show_record(file: &[u8], contents: &Contents, k: u32) -> Result<UndoReply, Refusal> {
    let undo = contents.undo.as_ref().ok_or(Refusal::absent())?;
    let record = undo.record(file, k).ok_or(Refusal::absent())?;
    Ok(UndoReply {
        path: in_file(record.place, record.length),
        stages: record.stages(file),
        ..UndoReply::default()
    })
}

/// The entry at a place of a file of version 2 or 3, with the place after it.
fn step(kind: u32, file: &[u8], at: usize, left: u32) -> Result<(Name, Fields, usize), Refusal> {
    let kind = kind_of(kind)?;
    let absent = |_| Refusal::absent();
    let (version, _) = whole::header(kind, file).map_err(absent)?;
    if left == 0 || version == 4 {
        return Err(Refusal::absent());
    }
    let body = whole::body(kind, file);
    let (item, end) = entries::entry_at(kind, body, version, at).map_err(absent)?;
    let name = in_file(item.start, item.length);
    Ok((name, entries::fields(kind, body, item.place), end))
}

fn in_file(offset: usize, length: usize) -> Name {
    Name {
        buffer: 1,
        offset,
        length,
    }
}
