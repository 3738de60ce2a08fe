//! Records of a sound file, drawn by chance, with what their spelling leaves open.

use super::names;
use crate::index_file::subdirectories;
use crate::kind::{Kind, Object, OBJECT};
use crate::random::Random;
use std::collections::BTreeSet;

/// The modes of entries and of resolve undo.
pub const MODES: [u32; 4] = [0o100644, 0o100755, 0o120000, 0o160000];
/// Where the mode is among the ten numbers.
pub const MODE: usize = 6;
/// The most levels of a cache tree.
pub const LEVELS: usize = 128;
pub const SKIP_WORKTREE: u16 = 0x4000;
pub const INTENT_TO_ADD: u16 = 0x2000;
/// Counts that read as invalid.
const NEGATIVE: [i64; 6] = [-1, -1, -2, -10, -2_147_483_647, -2_147_483_648];
/// Signatures of extensions that are passed over.
const PASSED: [&[u8; 4]; 7] = [
    b"EOIE", b"UNTR", b"FSMN", b"IEOT", b"A\0\0\0", b"Z~~~", b"Mxyz",
];

#[derive(Clone)]
pub struct Entry {
    pub numbers: [u32; 10],
    pub object: Object,
    pub assume_valid: bool,
    pub stage: u16,
    /// The extended word, where it is present.
    pub word: Option<u16>,
    pub name: Vec<u8>,
    /// How many more bytes than needed version 4 takes from the name before.
    pub more: usize,
}

#[derive(Clone)]
pub struct Node {
    pub name: Vec<u8>,
    pub count: i64,
    pub subtrees: usize,
    pub object: Object,
}

#[derive(Clone)]
pub struct Undo {
    pub path: Vec<u8>,
    pub modes: [u32; 3],
    pub objects: [Object; 3],
}

#[derive(Clone)]
pub enum Extension {
    Tree(Vec<Node>),
    Undo(Vec<Undo>),
    Passed([u8; 4], Vec<u8>),
}

/// Object names are drawn for the longest kind; a file has the first bytes of them.
#[derive(Clone)]
pub struct Records {
    pub kind: Kind,
    pub version: u32,
    pub entries: Vec<Entry>,
    pub extensions: Vec<Extension>,
}

// ---- entries

/// An entry with any fields that the version allows.
pub fn entry(random: &mut Random, version: u32, name: Vec<u8>, stage: u16) -> Entry {
    let mut numbers = [0; 10].map(|_| random.next() as u32);
    numbers[MODE] = *random.pick(&MODES);
    let word = match version > 2 && random.one_in(3) {
        true => Some(
            [
                0,
                SKIP_WORKTREE,
                INTENT_TO_ADD,
                SKIP_WORKTREE | INTENT_TO_ADD,
            ][random.below(4)],
        ),
        false => None,
    };
    Entry {
        numbers,
        object: random.array(),
        assume_valid: random.one_in(4),
        stage,
        word,
        name,
        more: if random.one_in(6) {
            random.below(12)
        } else {
            0
        },
    }
}

/// Entries of these names in the index's order, each at stage 0 or at some of the others.
pub fn entries(random: &mut Random, version: u32, names: Vec<Vec<u8>>) -> Vec<Entry> {
    let mut entries = Vec::new();
    for name in BTreeSet::from_iter(names) {
        let stages = match random.below(8) {
            0 => (1..4).filter(|_| random.one_in(2)).collect(),
            1 => vec![random.below(4) as u16],
            _ => vec![0],
        };
        for stage in stages {
            entries.push(entry(random, version, name.clone(), stage));
        }
    }
    entries
}

// ---- the cache tree

/// The order of siblings.
#[derive(Clone, Copy)]
enum Order {
    Index,
    Git,
    Chance,
}

/// How a tree is drawn.
struct Style {
    order: Order,
    /// A node is made invalid once in the given number of times, and none where it is 0.
    invalid: usize,
    /// The most levels.
    levels: usize,
}

/// The nodes of a tree over the entries' names, which rise, of at most the given number of levels.
pub fn tree(random: &mut Random, entries: &[Entry], levels: usize) -> Vec<Node> {
    let style = Style {
        order: *random.pick(&[Order::Index, Order::Git, Order::Chance]),
        invalid: *random.pick(&[0, 0, 2, 5, 12]),
        levels,
    };
    let names: Vec<&[u8]> = entries.iter().map(|entry| &entry.name[..]).collect();
    directory(random, &style, b"", &names, 1)
}

/// The node of a directory and those below it; the names are those of its entries, without its path.
fn directory(
    random: &mut Random,
    style: &Style,
    name: &[u8],
    names: &[&[u8]],
    level: usize,
) -> Vec<Node> {
    let below = subdirectories(names);
    let mut valid = style.invalid == 0 || !random.one_in(style.invalid);
    let mut lists = Vec::new();
    if level == style.levels {
        valid &= below.is_empty();
    } else {
        for (component, names) in &below {
            let nodes = directory(random, style, component, names, level + 1);
            valid &= nodes[0].count >= 0;
            lists.push(nodes);
        }
        if !valid {
            lists.retain(|_| !random.one_in(5));
        }
        strangers(random, &below, valid, &mut lists);
    }
    arrange(random, style.order, &mut lists);
    let count = match valid {
        true => names.len() as i64,
        false => *random.pick(&NEGATIVE),
    };
    let mut nodes = vec![node(random, name, count, lists.len())];
    nodes.extend(lists.concat());
    nodes
}

fn node(random: &mut Random, name: &[u8], count: i64, subtrees: usize) -> Node {
    Node {
        name: name.to_vec(),
        count,
        subtrees,
        object: random.array(),
    }
}

/// Adds nodes of directories that no entry is in.
fn strangers(
    random: &mut Random,
    known: &[(&[u8], Vec<&[u8]>)],
    valid: bool,
    lists: &mut Vec<Vec<Node>>,
) {
    if !random.one_in(6) {
        return;
    }
    for name in [&b".git"[..], b".", b"stranger", b"a", b"s"] {
        if random.one_in(2) || known.iter().any(|(component, _)| *component == name) {
            continue;
        }
        let count = if valid || random.one_in(2) { 0 } else { -1 };
        lists.push(vec![node(random, name, count, 0)]);
    }
}

fn arrange(random: &mut Random, order: Order, lists: &mut [Vec<Node>]) {
    match order {
        Order::Index => lists.sort_by_key(|nodes| [&nodes[0].name[..], b"/"].concat()),
        Order::Git => lists.sort_by_key(|nodes| (nodes[0].name.len(), nodes[0].name.clone())),
        Order::Chance => random.shuffle(lists),
    }
}

/// Adds directories that no entry is in to an invalid root, at the start or at the end, rising or not.
pub fn crowd(random: &mut Random, nodes: &mut Vec<Node>, count: usize) {
    let mut added: Vec<Node> = (0..count).map(|k| one_of_a_crowd(random, k)).collect();
    if random.one_in(2) {
        random.shuffle(&mut added);
    }
    nodes[0].count = -1;
    nodes[0].subtrees += count;
    let place = *random.pick(&[1, nodes.len()]);
    nodes.splice(place..place, added);
}

fn one_of_a_crowd(random: &mut Random, k: usize) -> Node {
    let digit = |shift: usize| 0x80 + (k >> shift) as u8 % 64;
    Node {
        name: vec![digit(12), digit(6), digit(0)],
        count: *random.pick(&[-1, 0]),
        subtrees: 0,
        object: random.array(),
    }
}

// ---- resolve undo and all together

/// Records of resolve undo in their order.
pub fn undo(random: &mut Random) -> Vec<Undo> {
    let mut paths = BTreeSet::new();
    for _ in 0..random.below(5) {
        paths.insert(match random.one_in(12) {
            true => names::long(random),
            false => names::sound(random, 3),
        });
    }
    let record = |path| {
        let mut modes = [0; 3].map(|_| match random.one_in(2) {
            true => *random.pick(&MODES),
            false => 0,
        });
        if modes == [0; 3] {
            modes[random.below(3)] = MODES[0];
        }
        let objects = [[0; OBJECT]; 3].map(|_| random.array());
        Undo {
            path,
            modes,
            objects,
        }
    };
    paths.into_iter().map(record).collect()
}

/// Records over these entries, with extensions in any order.
pub fn records(random: &mut Random, kind: Kind, version: u32, entries: Vec<Entry>) -> Records {
    let mut extensions = Vec::new();
    if !random.one_in(3) {
        extensions.push(Extension::Tree(tree(random, &entries, LEVELS)));
    }
    if random.one_in(3) {
        extensions.push(Extension::Undo(undo(random)));
    }
    while random.one_in(4) {
        let length = random.below(40);
        let data = random.bytes(length);
        extensions.push(Extension::Passed(**random.pick(&PASSED), data));
    }
    random.shuffle(&mut extensions);
    Records {
        kind,
        version,
        entries,
        extensions,
    }
}
