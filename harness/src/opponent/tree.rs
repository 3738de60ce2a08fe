//! The cache tree.

use std::cmp::Ordering;
use std::ops::Range;

use super::names::nul;
use crate::kind::{Kind, Object, OBJECT};

/// The most levels, the root being level 1.
const LEVELS: usize = 128;

/// The place of the root in the list of nodes.
pub const ROOT: usize = 0;

/// The nodes, top-down and depth first.
pub struct Tree<'a> {
    kind: Kind,
    /// The file up to the end of the data.
    data: &'a [u8],
    pub nodes: Vec<Node>,
}

/// A node: where its name is in the file, and its object name if it is valid.
pub struct Node {
    pub place: usize,
    pub length: usize,
    pub level: usize,
    /// The entry count of a valid node.
    pub count: Option<u32>,
    object: usize,
    /// The subtrees by their places in the list of nodes, sorted by name as the entries are.
    pub subtrees: Vec<usize>,
}

impl<'a> Tree<'a> {
    /// Reads the nodes that fill the data; nothing where they are malformed.
    pub fn read(kind: Kind, file: &'a [u8], data: Range<usize>) -> Option<Self> {
        let mut tree = Self {
            kind,
            data: &file[..data.end],
            nodes: Vec::new(),
        };
        let end = tree.read_node(data.start, 1)?;
        (end == data.end).then_some(tree)
    }

    /// The name of a node.
    pub fn name(&self, node: usize) -> &'a [u8] {
        let node = &self.nodes[node];
        &self.data[node.place..node.place + node.length]
    }

    /// The object name of a node, zeros if it is invalid.
    pub fn object(&self, node: &Node) -> Object {
        match node.count {
            Some(_) => self.kind.object(&self.data[node.object..]),
            None => [0; OBJECT],
        }
    }

    /// Makes invalid the root and each node on the way to a name's directory.
    pub fn invalidate(&mut self, name: &[u8]) {
        let mut components = name.split(|byte| *byte == b'/');
        // The last component is no directory.
        components.next_back();
        let mut node = ROOT;
        self.nodes[node].count = None;
        for component in components {
            let subtrees = &self.nodes[node].subtrees;
            let found = subtrees.binary_search_by(|below| order(self.name(*below), component));
            let place = match found {
                Ok(place) => place,
                Err(_) => return,
            };
            node = subtrees[place];
            self.nodes[node].count = None;
        }
    }

    /// Reads the node at a place and all below it, and answers the place after them.
    fn read_node(&mut self, at: usize, level: usize) -> Option<usize> {
        let (node, count, mut at) = node_at(self.kind, self.data, at, level)?;
        let index = self.nodes.len();
        self.nodes.push(node);
        let mut subtrees = Vec::new();
        for _ in 0..count {
            subtrees.push(self.nodes.len());
            at = self.read_node(at, level + 1)?;
        }
        subtrees.sort_by(|a, b| order(self.name(*a), self.name(*b)));
        let mut pairs = subtrees.windows(2);
        if pairs.any(|pair| self.name(pair[0]) == self.name(pair[1])) {
            return None;
        }
        self.nodes[index].subtrees = subtrees;
        Some(at)
    }
}

/// How the names of two directories compare in the names of entries, where "/" follows them.
pub fn order(one: &[u8], other: &[u8]) -> Ordering {
    let both = one.len().min(other.len());
    let next = |name: &[u8]| name.get(both).copied().unwrap_or(b'/');
    one[..both]
        .cmp(&other[..both])
        .then(next(one).cmp(&next(other)))
}

/// The node at a place, the number of its subtrees, and the place after it.
fn node_at(kind: Kind, data: &[u8], place: usize, level: usize) -> Option<(Node, u32, usize)> {
    let end = nul(data, place)?;
    let name = &data[place..end];
    if level > LEVELS || name.is_empty() != (level == 1) || name.contains(&b'/') {
        return None;
    }
    let (count, at) = decimal(data, end + 1, b' ')?;
    let (subtrees, at) = decimal(data, at, b'\n')?;
    let node = Node {
        place,
        length: name.len(),
        level,
        count: u32::try_from(count).ok(),
        object: at,
        subtrees: Vec::new(),
    };
    let next = at + node.count.map_or(0, |_| kind.width());
    let subtrees = u32::try_from(subtrees).ok()?;
    (next <= data.len()).then_some((node, subtrees, next))
}

/// The decimal number of 32 bits at a place, and the place after the byte that ends it.
fn decimal(data: &[u8], at: usize, end: u8) -> Option<(i32, usize)> {
    const LONGEST: usize = "-2147483648".len();
    let mut bytes = data[at..].iter().take(LONGEST + 1);
    let length = bytes.position(|byte| *byte == end)?;
    let text = &data[at..at + length];
    let digits = text.strip_prefix(b"-").unwrap_or(text);
    let plain = match digits {
        b"0" => text == digits,
        [b'1'..=b'9', ..] => digits.iter().all(u8::is_ascii_digit),
        _ => false,
    };
    if !plain {
        return None;
    }
    let number = std::str::from_utf8(text).ok()?.parse().ok()?;
    Some((number, at + length + 1))
}
