//! Records that are changed, and the one file of them in a version.

use super::Answer;
use crate::index_file::subdirectories;
use crate::inputs::layout::Layout;
use crate::inputs::records::{
    Entry, Extension, Node, Records, Undo, INTENT_TO_ADD, MODE, MODES, SKIP_WORKTREE,
};
use crate::inputs::requests::Call;
use crate::kind::{Kind, OBJECT};
use crate::plain;
use crate::replies::Fields;

pub const REGULAR: u32 = MODES[0];
pub const EXECUTABLE: u32 = MODES[1];

// ---- parts

/// An entry with zeros in all fields that take any value.
pub fn entry(name: &[u8], stage: u16) -> Entry {
    let mut numbers = [0; 10];
    numbers[MODE] = REGULAR;
    Entry {
        numbers,
        object: [0x11; OBJECT],
        assume_valid: false,
        stage,
        word: None,
        name: name.to_vec(),
        more: 0,
    }
}

/// The fields of an entry, as a put takes them.
pub fn fields(entry: &Entry) -> Fields {
    let n = entry.numbers;
    let word = entry.word.unwrap_or(0);
    Fields {
        ctime_seconds: n[0],
        ctime_nanoseconds: n[1],
        mtime_seconds: n[2],
        mtime_nanoseconds: n[3],
        dev: n[4],
        ino: n[5],
        mode: n[MODE],
        uid: n[7],
        gid: n[8],
        size: n[9],
        object: entry.object,
        assume_valid: entry.assume_valid,
        stage: u32::from(entry.stage),
        skip_worktree: word & SKIP_WORKTREE != 0,
        intent_to_add: word & INTENT_TO_ADD != 0,
    }
}

/// A directory of a cache tree; a negative count is invalid.
#[derive(Clone)]
pub struct Tree {
    pub name: Vec<u8>,
    pub count: i64,
    pub below: Vec<Tree>,
}

impl Tree {
    pub fn new(name: &[u8], count: i64, below: &[Tree]) -> Self {
        let (name, below) = (name.to_vec(), below.to_vec());
        Self { name, count, below }
    }

    /// The valid tree of these names, which rise.
    pub fn of(name: &[u8], names: &[&[u8]]) -> Self {
        let below = subdirectories(names);
        let below = below.iter().map(|(name, names)| Self::of(name, names));
        Self::new(name, names.len() as i64, &below.collect::<Vec<_>>())
    }

    /// The extension. Each node has an object name of its own.
    pub fn extension(&self) -> Extension {
        let mut nodes = Vec::new();
        self.add_to(&mut nodes);
        Extension::Tree(nodes)
    }

    fn add_to(&self, nodes: &mut Vec<Node>) {
        nodes.push(Node {
            name: self.name.clone(),
            count: self.count,
            subtrees: self.below.len(),
            object: plain::sha256(&nodes.len().to_be_bytes()),
        });
        for tree in &self.below {
            tree.add_to(nodes);
        }
    }
}

/// A record of resolve undo.
pub fn undo(path: &[u8], modes: [u32; 3]) -> Undo {
    Undo {
        path: path.to_vec(),
        modes,
        objects: [[0x44; OBJECT], [0x55; OBJECT], [0x66; OBJECT]],
    }
}

pub fn records(
    kind: Kind,
    version: u32,
    entries: Vec<Entry>,
    extensions: Vec<Extension>,
) -> Records {
    Records {
        kind,
        version,
        entries,
        extensions,
    }
}

/// Records of these names, with a valid tree or without.
pub fn of_names(kind: Kind, version: u32, names: &[&[u8]], tree: bool) -> Records {
    let entries = names.iter().map(|name| entry(name, 0)).collect();
    let tree = tree.then(|| Tree::of(b"", names).extension());
    records(kind, version, entries, tree.into_iter().collect())
}

pub fn file(records: &Records) -> Vec<u8> {
    records.kind.signed(Layout::new(records).body())
}

// ---- changes

#[derive(Clone)]
pub enum Edit {
    Rewrite,
    Put(Entry),
    Remove(Vec<u8>, u32),
}

/// A request on a file, and the records of its result.
pub struct Change {
    edit: Edit,
    after: Records,
}

impl Edit {
    pub fn call(&self, asked: u32) -> Call {
        match self {
            Self::Rewrite => Call::Rewrite(asked),
            Self::Put(entry) => Call::Put(asked, entry.name.clone(), fields(entry)),
            Self::Remove(name, stage) => Call::Remove(asked, name.clone(), *stage),
        }
    }
}

pub fn rewriting(before: &Records) -> Change {
    Change {
        edit: Edit::Rewrite,
        after: before.clone(),
    }
}

pub fn putting(before: &Records, entry: &Entry) -> Change {
    putting_on(before, entry, &directories_above(&entry.name))
}

/// A put; the caller tells the paths of the nodes that become invalid.
pub fn putting_on(before: &Records, entry: &Entry, directories: &[&[u8]]) -> Change {
    let mut change = removing_on(before, &entry.name, entry.stage.into(), directories);
    let key = (&entry.name, entry.stage);
    let entries = &mut change.after.entries;
    let place = entries.partition_point(|other| (&other.name, other.stage) < key);
    entries.insert(place, entry.clone());
    change.edit = Edit::Put(entry.clone());
    change
}

/// The entry of this name and stage goes, if it is there.
pub fn removing(before: &Records, name: &[u8], stage: u32) -> Change {
    removing_on(before, name, stage, &directories_above(name))
}

pub fn removing_on(before: &Records, name: &[u8], stage: u32, directories: &[&[u8]]) -> Change {
    let mut after = before.clone();
    after
        .entries
        .retain(|other| (&other.name[..], u32::from(other.stage)) != (name, stage));
    for extension in &mut after.extensions {
        if let Extension::Tree(nodes) = extension {
            invalidate(nodes, directories);
        }
    }
    let edit = Edit::Remove(name.to_vec(), stage);
    Change { edit, after }
}

/// The paths of the directories above a name, the root's being empty.
fn directories_above(name: &[u8]) -> Vec<&[u8]> {
    let slashes = (0..name.len()).filter(|&at| name[at] == b'/');
    let below = slashes.map(|at| &name[..at]);
    [&b""[..]].into_iter().chain(below).collect()
}

/// Makes the nodes of these paths invalid.
fn invalidate(nodes: &mut [Node], paths: &[&[u8]]) {
    // What is before the names of a node's subtrees, and how many of these are still to come.
    let mut open: Vec<(Vec<u8>, usize)> = Vec::new();
    for node in nodes {
        while matches!(open.last(), Some((_, 0))) {
            open.pop();
        }
        let mut path = node.name.clone();
        if let Some((above, left)) = open.last_mut() {
            *left -= 1;
            path = [&above[..], &node.name].concat();
        }
        if paths.contains(&&path[..]) {
            node.count = -1;
        }
        if !path.is_empty() {
            path.push(b'/');
        }
        open.push((path, node.subtrees));
    }
}

// ---- answers

impl Change {
    pub fn call(&self, asked: u32) -> Call {
        self.edit.call(asked)
    }

    /// The one file of the result's records, or 11 or 21.
    pub fn answer(&self, asked: u32) -> Answer {
        let entries = &self.after.entries;
        if entries.windows(2).any(mixed) {
            return Answer::Refused(11, 0);
        }
        let extended = entries.iter().any(|entry| entry.word.unwrap_or(0) != 0);
        match (asked, extended) {
            (2, true) => Answer::Refused(21, 0),
            (1, true) => self.written(3),
            (1, false) => self.written(2),
            (0, _) => self.written(4),
            _ => self.written(asked),
        }
    }

    /// The one file of the result's records in a version.
    pub fn written(&self, version: u32) -> Answer {
        Answer::Written(file(&plainly(version, &self.after)))
    }
}

/// Whether two entries in their order have one name, the first at stage 0.
fn mixed(pair: &[Entry]) -> bool {
    pair[0].name == pair[1].name && pair[0].stage == 0
}

/// The records without all that their spelling leaves open.
fn plainly(version: u32, given: &Records) -> Records {
    let plain = |entry: &Entry| Entry {
        word: entry.word.filter(|word| *word != 0),
        more: 0,
        ..entry.clone()
    };
    let (mut trees, mut undos) = (Vec::new(), Vec::new());
    for extension in &given.extensions {
        match extension {
            Extension::Tree(nodes) => trees.push(Extension::Tree(minus_one(nodes))),
            Extension::Undo(_) => undos.push(extension.clone()),
            Extension::Passed(..) => (),
        }
    }
    trees.extend(undos);
    let entries = given.entries.iter().map(plain).collect();
    records(given.kind, version, entries, trees)
}

/// The nodes with -1 for every invalid count.
fn minus_one(nodes: &[Node]) -> Vec<Node> {
    let written = |node: &Node| Node {
        count: node.count.max(-1),
        ..node.clone()
    };
    nodes.iter().map(written).collect()
}
