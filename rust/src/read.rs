//! The calls that read one thing of a file.

use crate::calls;
use crate::raw::{Name, Stage};
use crate::{Entry, Kind, Refusal, Summary, Tree, TreeNode, UndoRecord};

/// Checks a whole file.
///
/// The workspace has at least [`WORKSPACE`](crate::WORKSPACE) bytes; they are overwritten.
///
/// ```
/// use nerupazhil::{check, Kind, EMPTY, WORKSPACE};
///
/// let mut work = [0; WORKSPACE];
/// let summary = check(Kind::Sha1, &EMPTY, &mut work)?;
/// assert_eq!((summary.version, summary.entries), (2, 0));
///
/// // A file that is cut short is refused.
/// assert_eq!(check(Kind::Sha1, &EMPTY[..31], &mut work).unwrap_err().number(), 1);
/// # Ok::<(), nerupazhil::Refusal>(())
/// ```
pub fn check(kind: Kind, file: &[u8], work: &mut [u8]) -> Result<Summary, Refusal> {
    let reply = calls::check(kind.number(), file, work);
    Refusal::unless_zero(reply.refusal, reply.place)?;
    Ok(Summary::of(&reply))
}

/// Checks a file and shows its entry `k`, from 0.
///
/// The name is a part of the file in versions 2 and 3, and of the workspace in version 4. A [`walk`](crate::walk()) is
/// the quick way to all entries.
///
/// ```
/// # let file = include_bytes!(concat!(env!("CARGO_MANIFEST_DIR"), "/../tests/vectors/real/v4-committed.index"));
/// use nerupazhil::{entry, mode, Kind, Reason, WORKSPACE};
///
/// let mut work = [0; WORKSPACE];
/// let first = entry(Kind::Sha1, file, &mut work, 0)?;
/// assert_eq!(first.name, b"a-b");
/// assert_eq!(first.fields.mode, mode::REGULAR);
///
/// let refusal = entry(Kind::Sha1, file, &mut work, 1_000_000).unwrap_err();
/// assert_eq!(refusal.reason(), Reason::NotThere);
/// # Ok::<(), nerupazhil::Refusal>(())
/// ```
///
/// A name can't outlive the buffers:
///
/// ```compile_fail,E0597
/// # use nerupazhil::{entry, Kind, EMPTY, WORKSPACE};
/// let name = {
///     let mut work = [0; WORKSPACE];
///     entry(Kind::Sha1, &EMPTY, &mut work, 0).unwrap().name
/// };
/// println!("{name:?}");
/// ```
pub fn entry<'a>(
    kind: Kind,
    file: &'a [u8],
    work: &'a mut [u8],
    k: u32,
) -> Result<Entry<'a>, Refusal> {
    let reply = calls::entry(kind.number(), file, work, k);
    Refusal::unless_zero(reply.refusal, reply.place)?;
    let buffer = match reply.name.buffer {
        2 => work,
        _ => file,
    };
    Ok(Entry {
        name: part(buffer, reply.name),
        fields: reply.fields,
    })
}

/// Checks a file and shows node `k` of its cache tree, from 0.
///
/// ```
/// # let file = include_bytes!(concat!(env!("CARGO_MANIFEST_DIR"), "/../tests/vectors/real/v2-committed.index"));
/// use nerupazhil::{tree_node, Kind, WORKSPACE};
///
/// let mut work = [0; WORKSPACE];
/// let root = tree_node(Kind::Sha1, file, &mut work, 0)?;
/// let tree = root.tree.expect("Git knows the tree of a commit");
/// assert_eq!((root.name, root.level, tree.entries), (&b""[..], 1, 20));
/// # Ok::<(), nerupazhil::Refusal>(())
/// ```
pub fn tree_node<'a>(
    kind: Kind,
    file: &'a [u8],
    work: &mut [u8],
    k: u32,
) -> Result<TreeNode<'a>, Refusal> {
    let reply = calls::tree_node(kind.number(), file, work, k);
    Refusal::unless_zero(reply.refusal, reply.place)?;
    Ok(TreeNode {
        name: part(file, reply.name),
        level: reply.level,
        subtrees: reply.subtrees,
        tree: reply.valid.then_some(Tree {
            entries: reply.count,
            object: reply.object,
        }),
    })
}

/// Checks a file and shows its resolve-undo record `k`, from 0.
///
/// ```
/// # let file = include_bytes!(concat!(env!("CARGO_MANIFEST_DIR"), "/../tests/vectors/real/v2-resolve-undo.index"));
/// use nerupazhil::{undo_record, Kind, WORKSPACE};
///
/// let mut work = [0; WORKSPACE];
/// let record = undo_record(Kind::Sha1, file, &mut work, 0)?;
/// assert!(record.stages.iter().any(Option::is_some));
/// # Ok::<(), nerupazhil::Refusal>(())
/// ```
pub fn undo_record<'a>(
    kind: Kind,
    file: &'a [u8],
    work: &mut [u8],
    k: u32,
) -> Result<UndoRecord<'a>, Refusal> {
    let reply = calls::undo_record(kind.number(), file, work, k);
    Refusal::unless_zero(reply.refusal, reply.place)?;
    Ok(UndoRecord {
        path: part(file, reply.path),
        stages: [reply.first, reply.second, reply.third].map(present),
    })
}

/// A stage with mode 0 is missing.
fn present(stage: Stage) -> Option<Stage> {
    (stage.mode != 0).then_some(stage)
}

/// A name that a reply shows in a buffer. The library is proved to stay within it; nothing here rests on that.
#[inline]
pub(crate) fn part(buffer: &[u8], name: Name) -> &[u8] {
    buffer
        .get(name.offset..)
        .and_then(|rest| rest.get(..name.length))
        .expect("the library showed a name outside of its buffer")
}
