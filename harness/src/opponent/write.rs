//! Writing: the one file of the records in a version.

use std::cmp::Ordering;

use super::entries::{
    padded, ASSUME_VALID, EXTENDED, HEADER, INTENT_TO_ADD, LONG, MODES, SKIP_WORKTREE, STAGE_SHIFT,
};
use super::names::{common, sound};
use super::refusal::{self, Refusal};
use super::tree::Tree;
use super::whole::{Contents, LONGEST, SIGNATURE};
use crate::kind::Kind;
use crate::replies::Fields;

/// The entry of this name and stage goes, and one with these fields comes in its place.
#[derive(Clone, Copy)]
pub struct Change<'a> {
    pub name: &'a [u8],
    pub stage: u32,
    pub put: Option<Fields>,
}

/// A file that is being written.
struct Writer {
    kind: Kind,
    bytes: Vec<u8>,
    version: u32,
    entries: u32,
    /// The name of the last entry.
    before: Vec<u8>,
}

/// Writes the contents with a change to the output, and answers how many bytes that is.
pub fn edit(
    mut contents: Contents,
    out: &mut [u8],
    asked: u32,
    change: Option<Change>,
) -> Result<usize, Refusal> {
    check_request(asked, change).map_err(Refusal::whole)?;
    if mixes(&contents, change) {
        return Err(Refusal::whole(refusal::ORDER));
    }
    let version = version(&contents, asked, change).map_err(Refusal::whole)?;
    if let (Some(tree), Some(change)) = (&mut contents.tree, change) {
        tree.invalidate(change.name);
    }
    let written = Writer::new(contents.kind, version).write(&contents, change);
    let bytes = written.ok_or(Refusal::whole(refusal::TOO_LONG))?;
    let start = out
        .get_mut(..bytes.len())
        .ok_or(Refusal::whole(refusal::OUTPUT_SMALL))?;
    start.copy_from_slice(&bytes);
    Ok(bytes.len())
}

/// Checks the asked version, and the record of a put.
fn check_request(asked: u32, change: Option<Change>) -> Result<(), u32> {
    if asked > 4 {
        return Err(refusal::VERSION);
    }
    let (name, stage, fields) = match change {
        Some(Change {
            name,
            stage,
            put: Some(fields),
        }) => (name, stage, fields),
        _ => return Ok(()),
    };
    if !MODES.contains(&fields.mode) {
        return Err(refusal::MODE);
    }
    if stage > 3 {
        return Err(refusal::FLAGS);
    }
    if !sound(name, 0) {
        return Err(refusal::NAME);
    }
    Ok(())
}

/// Whether a put would bring stage 0 together with another stage of its name.
fn mixes(contents: &Contents, change: Option<Change>) -> bool {
    let put = match change {
        Some(change) if change.put.is_some() => change,
        _ => return false,
    };
    let entries = &contents.entries;
    let mut before = Vec::new();
    entries.items.iter().any(|item| {
        let same = entries.name(item, &mut before) == put.name;
        same && (entries.stage(item) == 0) != (put.stage == 0)
    })
}

/// The version to write: 0 asks for 4, and 1 for the lowest that the result can have, 2 where none of its entries needs
/// the extended word and else 3. Refused where the entry to remove is absent.
fn version(contents: &Contents, asked: u32, change: Option<Change>) -> Result<u32, u32> {
    let entries = &contents.entries;
    let put = change.and_then(|change| change.put);
    let mut needed = put.map_or(false, |fields| word(&fields) != 0);
    let mut found = false;
    let mut before = Vec::new();
    for item in &entries.items {
        let name = entries.name(item, &mut before);
        let stage = entries.stage(item);
        if compare(name, stage, change) == Ordering::Equal {
            found = true;
        } else {
            needed |= entries.word(item) != 0;
        }
    }
    match (asked, needed) {
        _ if change.is_some() && put.is_none() && !found => Err(refusal::ABSENT),
        (0, _) => Ok(4),
        (1, false) => Ok(2),
        (1, true) => Ok(3),
        (2, true) => Err(refusal::NEEDS_WORD),
        _ => Ok(asked),
    }
}

/// How a name and stage compare with those of a change. Without one all are less.
fn compare(name: &[u8], stage: u32, change: Option<Change>) -> Ordering {
    change.map_or(Ordering::Less, |change| {
        (name, stage).cmp(&(change.name, change.stage))
    })
}

/// The extended word of an entry, 0 where it needs none.
fn word(fields: &Fields) -> u16 {
    let skip = u16::from(fields.skip_worktree) * SKIP_WORKTREE;
    let intent = u16::from(fields.intent_to_add) * INTENT_TO_ADD;
    skip | intent
}

impl Writer {
    fn new(kind: Kind, version: u32) -> Self {
        Self {
            kind,
            bytes: [SIGNATURE, &version.to_be_bytes(), &[0; 4]].concat(),
            version,
            entries: 0,
            before: Vec::new(),
        }
    }

    /// The whole file; nothing where it is too long.
    fn write(mut self, contents: &Contents, change: Option<Change>) -> Option<Vec<u8>> {
        self.all_entries(contents, change)?;
        self.bytes[HEADER - 4..HEADER].copy_from_slice(&self.entries.to_be_bytes());
        if let Some(tree) = &contents.tree {
            self.extension(b"TREE", &nodes(self.kind, tree));
        }
        if let Some(undo) = &contents.undo {
            // The records have no other spelling than that of the file.
            self.extension(b"REUC", &contents.file[undo.data.clone()]);
        }
        let digest = self.kind.hash(&self.bytes);
        self.bytes.extend(&digest[..self.kind.width()]);
        (self.bytes.len() <= LONGEST).then_some(self.bytes)
    }

    /// The entries of the result. It ends early where they are too long.
    fn all_entries(&mut self, contents: &Contents, change: Option<Change>) -> Option<()> {
        let entries = &contents.entries;
        let mut put = change.and_then(|change| Some((change.name, change.put?)));
        let mut before = Vec::new();
        for item in &entries.items {
            let name = entries.name(item, &mut before);
            let fields = entries.fields(item);
            let order = compare(name, fields.stage, change);
            if order != Ordering::Less {
                self.add(put.take());
            }
            if order != Ordering::Equal {
                self.add(Some((name, fields)));
            }
            if self.bytes.len() > LONGEST {
                return None;
            }
        }
        self.add(put);
        Some(())
    }

    /// Adds an entry, if there is one.
    fn add(&mut self, entry: Option<(&[u8], Fields)>) {
        let (name, fields) = match entry {
            Some(entry) => entry,
            None => return,
        };
        let place = self.bytes.len();
        self.fixed(name, &fields);
        if self.version == 4 {
            self.compressed(name);
        } else {
            let length = padded(self.bytes.len() - place, name.len());
            self.bytes.extend_from_slice(name);
            self.bytes.resize(place + length, 0);
        }
        self.entries += 1;
    }

    /// The entry up to its name.
    fn fixed(&mut self, name: &[u8], fields: &Fields) {
        let numbers = [
            fields.ctime_seconds,
            fields.ctime_nanoseconds,
            fields.mtime_seconds,
            fields.mtime_nanoseconds,
            fields.dev,
            fields.ino,
            fields.mode,
            fields.uid,
            fields.gid,
            fields.size,
        ];
        self.bytes
            .extend(numbers.iter().flat_map(|n| n.to_be_bytes()));
        self.bytes.extend(&fields.object[..self.kind.width()]);
        let word = word(fields);
        let assume_valid = u16::from(fields.assume_valid) * ASSUME_VALID;
        let extended = u16::from(word != 0) * EXTENDED;
        let stage = (fields.stage as u16) << STAGE_SHIFT;
        let length = name.len().min(LONG) as u16;
        let flags = assume_valid | extended | stage | length;
        self.bytes.extend(flags.to_be_bytes());
        if word != 0 {
            self.bytes.extend(word.to_be_bytes());
        }
    }

    /// N, the rest of the name, and NUL.
    fn compressed(&mut self, name: &[u8]) {
        let kept = common(name, &self.before);
        match self.before.len() - kept {
            n @ 0..=127 => self.bytes.push(n as u8),
            n => self.bytes.extend([(n / 128 + 127) as u8, (n % 128) as u8]),
        }
        self.bytes.extend_from_slice(&name[kept..]);
        self.bytes.push(0);
        self.before.truncate(kept);
        self.before.extend_from_slice(&name[kept..]);
    }

    fn extension(&mut self, signature: &[u8; 4], data: &[u8]) {
        self.bytes.extend(signature);
        self.bytes.extend((data.len() as u32).to_be_bytes());
        self.bytes.extend_from_slice(data);
    }
}

/// The data of TREE.
fn nodes(kind: Kind, tree: &Tree) -> Vec<u8> {
    let mut data = Vec::new();
    for (i, node) in tree.nodes.iter().enumerate() {
        data.extend_from_slice(tree.name(i));
        let count = node.count.map_or(-1, i64::from);
        data.extend(format!("\0{count} {}\n", node.subtrees.len()).bytes());
        if node.count.is_some() {
            data.extend(&tree.object(node)[..kind.width()]);
        }
    }
    data
}
