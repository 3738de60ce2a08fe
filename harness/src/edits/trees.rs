//! The nodes that a put or remove makes invalid, told here by their paths.

use super::records::{
    entry, of_names, putting, putting_on, removing, removing_on, rewriting, Tree,
};
use super::{in_versions, Case, ASKED};
use crate::kind::Kind;
use crate::random::Random;

const NAMES: [&[u8]; 7] = [
    b"a-b",
    b"a/b",
    b"a/c",
    b"a/d/e",
    b"b/c",
    b"b/d/a/d/e",
    b"file",
];
/// Names, and the nodes that a change of them makes invalid.
const INVALIDATED: [(&[u8], &[&[u8]]); 17] = [
    (b"a/c", &[b"", b"a"]),
    (b"a/d/e", &[b"", b"a", b"a/d"]),
    (b"a/d/f", &[b"", b"a", b"a/d"]),
    (b"a/x/y", &[b"", b"a"]),
    (b"a", &[b""]),
    (b"a/d", &[b"", b"a"]),
    (b"d/e", &[b""]),
    (b"a-b", &[b""]),
    (b"aa/c", &[b""]),
    (b"a0", &[b""]),
    (b"b/c/d", &[b"", b"b"]),
    (b"b/a/d/e", &[b"", b"b"]),
    (b"b/d/a/d/e", &[b"", b"b", b"b/d", b"b/d/a", b"b/d/a/d"]),
    (b"b/d/a", &[b"", b"b", b"b/d"]),
    (b"file/x", &[b""]),
    (b"z/0", &[b"", b"z"]),
    (b"z/0/1", &[b"", b"z", b"z/0"]),
];

/// Whole trees, in three orders of siblings.
pub fn whole(kind: Kind) -> Vec<Case> {
    let orders: [fn(&mut [Tree]); 3] = [
        |below| below.sort_by_key(|tree| [&tree.name[..], b"/"].concat()),
        |below| below.sort_by_key(|tree| (tree.name.len(), tree.name.clone())),
        |below| Random::of(1, below.len() as u64).shuffle(below),
    ];
    let mut cases = Vec::new();
    for version in 2..=4 {
        for order in orders {
            let mut tree = Tree::of(b"", &NAMES);
            // Valid nodes without entries, one with a name that no entry can have.
            let empty = [b"0", &b".git"[..]].map(|name| Tree::new(name, 0, &[]));
            tree.below.push(Tree::new(b"z", 0, &empty));
            arrange(&mut tree, order);
            cases.extend(changes_of(kind, version, &tree));
        }
    }
    cases
}

fn arrange(tree: &mut Tree, order: fn(&mut [Tree])) {
    order(&mut tree.below);
    for below in &mut tree.below {
        arrange(below, order);
    }
}

fn changes_of(kind: Kind, version: u32, tree: &Tree) -> Vec<Case> {
    let mut before = of_names(kind, version, &NAMES, false);
    before.extensions.push(tree.extension());
    let mut changes = vec![rewriting(&before)];
    for (name, directories) in INVALIDATED {
        changes.push(putting_on(&before, &entry(name, 0), directories));
        if NAMES.contains(&name) {
            changes.push(removing_on(&before, name, 0, directories));
        }
    }
    in_versions("whole tree", &before, &changes, &[version])
}

/// Trees that lack nodes, and trees of many levels.
pub fn parts(kind: Kind) -> Vec<Case> {
    // Without the node of a directory on the path, those below it are not on the path.
    let a = Tree::new(b"a", -(1 << 31), &[Tree::new(b"d", 0, &[])]);
    let b = Tree::new(b"b", -2, &[a]);
    let part = Tree::new(b"", -7, &[b, Tree::new(b"d", 0, &[])]);
    let mut before = of_names(kind, 2, &NAMES, false);
    before.extensions.push(part.extension());
    let directories: [&[u8]; 4] = [b"", b"b", b"b/a", b"b/a/d"];
    let changes = [
        rewriting(&before),
        putting_on(&before, &entry(b"b/a/d/e", 0), &directories),
        removing_on(&before, b"b/d/a/d/e", 0, &[b"", b"b"]),
        removing_on(&before, b"a/d/e", 0, &[b""]),
    ];
    let mut cases = in_versions("part of a tree", &before, &changes, &ASKED);
    cases.extend(
        [1, 2, 127, 128]
            .into_iter()
            .flat_map(|count| levels(kind, count)),
    );
    cases
}

/// Nested directories of the given number of levels, with changes on several of them and below the last.
fn levels(kind: Kind, levels: usize) -> Vec<Case> {
    let below = |depth: usize, name: &[u8]| [&b"d/".repeat(depth)[..], name].concat();
    let name = below(levels - 1, b"file");
    let before = of_names(kind, 4, &[&name], true);
    let mut changes = vec![rewriting(&before), removing(&before, &name, 0)];
    for depth in [0, 1, 60, 126, 127, 128, 200] {
        changes.push(putting(&before, &entry(&below(depth, b"new"), 0)));
    }
    in_versions(&format!("{levels} levels"), &before, &changes, &[2, 4])
}
