//! The counts of the cache tree's nodes, held against the entries.

use std::cmp::Ordering;

use super::entries::Entries;
use super::names::common;
use super::tree::{order, Node, Tree, ROOT};

/// A pass over the names in their order, in which the entries of a directory are together.
struct Pass<'t, 'a> {
    tree: &'t Tree<'a>,
    tallies: Vec<Tally>,
    /// The directory that the pass is in, "/" at its end.
    path: Vec<u8>,
    /// That directory and those above it but the root. The last one may be without a node; what is below that is not
    /// looked at.
    directories: Vec<Directory>,
    /// How many names have been passed.
    passed: u32,
}

/// What a pass finds out about a node.
#[derive(Clone, Default)]
struct Tally {
    /// How many entries have names that begin with the node's path, and how many of these have no further "/".
    entries: u32,
    direct: u32,
    /// How many of the node's subtrees have been passed.
    subtrees: usize,
}

/// A directory that the pass is in: its node, how long its path is, and how many names are before it.
struct Directory {
    node: Option<usize>,
    length: usize,
    first: u32,
}

/// Whether the counts of all valid nodes are right.
pub fn right(entries: &Entries, tree: &Tree) -> bool {
    let mut pass = Pass {
        tree,
        tallies: vec![Tally::default(); tree.nodes.len()],
        path: Vec::new(),
        directories: Vec::new(),
        passed: 0,
    };
    let mut before = Vec::new();
    for item in &entries.items {
        pass.add(entries.name(item, &mut before));
    }
    pass.leave(0);
    pass.tallies[ROOT].entries = pass.passed;
    let mut nodes = tree.nodes.iter().zip(&pass.tallies);
    nodes.all(|(node, tally)| agrees(tree, node, tally))
}

/// Whether a node has the right count, if it is valid, and nothing invalid below it.
fn agrees(tree: &Tree, node: &Node, tally: &Tally) -> bool {
    let count = match node.count {
        Some(count) => count,
        None => return true,
    };
    let counts = node.subtrees.iter().map(|below| tree.nodes[*below].count);
    let below: Option<u64> = counts.map(|count| count.map(u64::from)).sum();
    let parts = below.map(|below| below + u64::from(tally.direct));
    tally.entries == count && parts == Some(u64::from(count))
}

impl Pass<'_, '_> {
    /// The node of the directory that the pass is in.
    fn node(&self) -> Option<usize> {
        self.directories.last().map_or(Some(ROOT), |last| last.node)
    }

    /// Passes a name.
    fn add(&mut self, name: &[u8]) {
        if !name.starts_with(&self.path) {
            self.leave(common(name, &self.path));
        }
        self.enter(name);
        if let Some(node) = self.node() {
            self.tallies[node].direct += 1;
        }
        self.passed += 1;
    }

    /// Leaves the directories whose paths are longer than what is kept.
    fn leave(&mut self, kept: usize) {
        while self.directories.last().map_or(0, |last| last.length) > kept {
            let last = self.directories.pop().expect("it was there");
            if let Some(node) = last.node {
                self.tallies[node].entries = self.passed - last.first;
            }
        }
        let length = self.directories.last().map_or(0, |last| last.length);
        self.path.truncate(length);
    }

    /// Enters the further directories of a name, up to the first without a node.
    fn enter(&mut self, name: &[u8]) {
        while let Some(node) = self.node() {
            let rest = &name[self.path.len()..];
            let slash = match rest.iter().position(|byte| *byte == b'/') {
                Some(slash) => slash,
                None => return,
            };
            self.path.extend_from_slice(&rest[..=slash]);
            let directory = Directory {
                node: self.subtree(node, &rest[..slash]),
                length: self.path.len(),
                first: self.passed,
            };
            self.directories.push(directory);
        }
    }

    /// The subtree of a name, after those that have been passed: directories are entered in the order of the subtrees.
    fn subtree(&mut self, node: usize, name: &[u8]) -> Option<usize> {
        let tally = &mut self.tallies[node];
        for below in &self.tree.nodes[node].subtrees[tally.subtrees..] {
            match order(self.tree.name(*below), name) {
                Ordering::Less => tally.subtrees += 1,
                Ordering::Equal => return Some(*below),
                Ordering::Greater => return None,
            }
        }
        None
    }
}
