//! What a file that ends too early shows, held against what it showed whole.

use super::{Sample, Shown, Way};
use crate::comparison::Reply;
use crate::replies::{EntryReply, Fields, NodeReply, UndoReply};

/// From this length on, the name of an entry of versions 2 and 3 ends at its NUL.
const LONG: usize = 4095;
/// The most bytes that such a name can lose: with one byte of padding more than that, the entry would be shorter.
const LOST: usize = 7;

/// What became of a file.
#[derive(Clone, Copy, Debug, PartialEq, Eq, PartialOrd, Ord)]
pub enum Effect {
    Refused,
    Same,
    ShorterName,
    FlagLost,
    NodeObject,
    RecordObjects,
    UndoGone,
    TreeGone,
    Counts,
    Others,
}

impl Effect {
    pub const ALL: [Self; 10] = [
        Self::Refused,
        Self::Same,
        Self::ShorterName,
        Self::FlagLost,
        Self::NodeObject,
        Self::RecordObjects,
        Self::UndoGone,
        Self::TreeGone,
        Self::Counts,
        Self::Others,
    ];

    pub fn words(self) -> &'static str {
        match self {
            Self::Refused => "refused",
            Self::Same => "accepted, all records the same",
            Self::ShorterName => "the last entry's name lacks 1 to 7 bytes",
            Self::FlagLost => "the last entry's extended flags are lost",
            Self::NodeObject => "the last node's object name ends in zeros",
            Self::RecordObjects => "the last undo record's object names end in zeros",
            Self::UndoGone => "an empty REUC is gone",
            Self::TreeGone => "TREE, or a REUC with records, is gone",
            Self::Counts => "other numbers of nodes or undo records",
            Self::Others => "nodes or undo records differ otherwise",
        }
    }
}

/// What became of a file: one effect, or several on what is not entries. Other entries than those of the whole file are
/// an error, but for the last one of a zeroed file, in two cases.
pub fn effects(
    sample: &Sample,
    whole: &Shown,
    way: Way,
    left: &Shown,
) -> Result<Vec<Effect>, String> {
    if left.checked.refusal > 0 {
        return Ok(vec![Effect::Refused]);
    }
    let mut met = Vec::new();
    if let Some(k) = other_entry(whole, left)? {
        let last = k + 1 == whole.entries.len();
        let at_the_end = whole.checked.end == sample.kind.body(&sample.bytes).len();
        let effect = match way == Way::Zeroed && last && at_the_end {
            true => last_entry(whole, left),
            false => None,
        };
        let (old, new) = (&whole.entries[k], &left.entries[k]);
        met.push(effect.ok_or_else(|| format!("entry {k}: {new:?}, not {old:?}"))?);
    }
    met.extend(tree(whole, left));
    met.extend(undo(whole, left));
    if met.is_empty() {
        met.push(Effect::Same);
    }
    Ok(met)
}

/// The one entry that is another, if any is.
fn other_entry(whole: &Shown, left: &Shown) -> Result<Option<usize>, String> {
    let (old, new) = (whole.entries.len(), left.entries.len());
    if old != new {
        return Err(format!("{new} entries, not {old}"));
    }
    match differing(&whole.entries, &left.entries)[..] {
        [] => Ok(None),
        [k] => Ok(Some(k)),
        ref several => Err(format!("entries {several:?} are others")),
    }
}

/// The numbers of the items that differ in two rows of one length.
fn differing<T: PartialEq>(one: &[T], other: &[T]) -> Vec<usize> {
    (0..one.len()).filter(|&k| one[k] != other[k]).collect()
}

/// What became of the last entry. In versions 2 and 3 a long name can lose bytes to the padding; in version 4 an entry
/// of the same name as the one before can lose the flags of the extended word.
fn last_entry(whole: &Shown, left: &Shown) -> Option<Effect> {
    let (old, name) = whole.entries.last()?;
    let (new, shorter) = left.entries.last()?;
    let (old, new) = (fields(old)?, fields(new)?);
    if whole.checked.version == 4 {
        let before = whole.entries.iter().rev().nth(1)?;
        let lost = Fields {
            skip_worktree: false,
            intent_to_add: false,
            ..old
        };
        let found = shorter == name && before.1 == *name && new == lost;
        return found.then_some(Effect::FlagLost);
    }
    let lost = name.len().checked_sub(shorter.len())?;
    let found = (1..=LOST).contains(&lost) && shorter.len() >= LONG && name.starts_with(shorter);
    (found && new == old).then_some(Effect::ShorterName)
}

fn fields(reply: &Reply) -> Option<Fields> {
    match reply {
        Reply::Entry(EntryReply { fields, .. }) => Some(*fields),
        _ => None,
    }
}

/// What became of the cache tree, where it is another.
fn tree(whole: &Shown, left: &Shown) -> Option<Effect> {
    let (old, new) = (&whole.nodes, &left.nodes);
    if whole.checked.has_tree != left.checked.has_tree {
        return Some(Effect::TreeGone);
    }
    extension(old, new, Effect::NodeObject, |old, new| match (old, new) {
        (Reply::Node(old), Reply::Node(new)) => {
            let object = new.object;
            zeros_at_end(&old.object, &object) && NodeReply { object, ..*old } == *new
        }
        _ => false,
    })
}

/// What became of resolve undo, where it is another.
fn undo(whole: &Shown, left: &Shown) -> Option<Effect> {
    let (old, new) = (&whole.records, &left.records);
    if whole.checked.has_undo != left.checked.has_undo {
        return Some(match old.is_empty() && new.is_empty() {
            true => Effect::UndoGone,
            false => Effect::TreeGone,
        });
    }
    extension(old, new, Effect::RecordObjects, |old, new| {
        match (old, new) {
            (Reply::Undo(old), Reply::Undo(new)) => {
                let objects = |reply: &UndoReply| reply.stages.map(|stage| stage.object).concat();
                let mut same = *old;
                for (k, stage) in new.stages.iter().enumerate() {
                    same.stages[k].object = stage.object;
                }
                zeros_at_end(&objects(old), &objects(new)) && same == *new
            }
            _ => false,
        }
    })
}

/// What became of the items of an extension: the effect where only the last one is another, in the way that `last` knows.
fn extension(
    old: &[(Reply, Vec<u8>)],
    new: &[(Reply, Vec<u8>)],
    effect: Effect,
    last: impl Fn(&Reply, &Reply) -> bool,
) -> Option<Effect> {
    if old.len() != new.len() {
        return Some(Effect::Counts);
    }
    match differing(old, new)[..] {
        [] => None,
        [k] if k + 1 == old.len() && old[k].1 == new[k].1 && last(&old[k].0, &new[k].0) => {
            Some(effect)
        }
        _ => Some(Effect::Others),
    }
}

/// Whether the second is the beginning of the first with zeros behind it.
fn zeros_at_end(old: &[u8], new: &[u8]) -> bool {
    let same = old.iter().zip(new).take_while(|(old, new)| old == new);
    new[same.count()..].iter().all(|byte| *byte == 0)
}
