//! Directories with many subdirectories, the nodes in several orders and with faults: the proved check against the
//! simple one.

#![deny(warnings)]

use harness::index_file::{letters, node, File};
use harness::kind::Kind;
use harness::random::Random;
use harness::replies::WORKSPACE;
use harness::{ffi, opponent};

/// A subdirectory: how many files it has, and the count that its node says, where it has one.
#[derive(Clone)]
struct Directory {
    name: Vec<u8>,
    files: usize,
    count: Option<i64>,
}

/// The name with "/" after it, by which entries are sorted.
fn path(directory: &Directory) -> Vec<u8> {
    [&directory.name, &b"/"[..]].concat()
}

/// Subdirectories whose names have several lengths. Some lengths differ by 1,024.
fn directories(random: &mut Random) -> Vec<Directory> {
    let many = 480 + random.below(400);
    let mut found = Vec::new();
    for i in 0..many {
        let more = *random.pick(&[0, 1, 2, 5, 11, 30]);
        let more = more + if random.one_in(60) { 1024 } else { 0 };
        let name = [letters(i, 3), vec![b'-'; more]].concat();
        let files = 1 + random.below(3);
        found.push(Directory {
            name,
            files,
            count: Some(files as i64),
        });
    }
    found
}

/// Puts the nodes in an order: the index's, Git's, no order, or one of the first two turned round or a bit mixed.
fn arrange(random: &mut Random, nodes: &mut [Directory]) {
    match random.below(3) {
        0 => nodes.sort_by_key(path),
        1 => nodes.sort_by_key(|directory| (directory.name.len(), directory.name.clone())),
        _ => random.shuffle(nodes),
    }
    match random.below(4) {
        0 => nodes.reverse(),
        1 => {
            let (one, other) = (random.below(nodes.len()), random.below(nodes.len()));
            nodes.swap(one, other);
        }
        _ => {}
    }
}

/// Changes a few nodes: none, an invalid one, a wrong count, a directory without files, a name twice.
fn change(random: &mut Random, nodes: &mut Vec<Directory>) {
    for _ in 0..random.below(4) {
        let at = random.below(nodes.len());
        match random.below(6) {
            0 => nodes[at].count = None,
            1 => nodes[at].count = Some(-1),
            2 => nodes[at].count = nodes[at].count.map(|count| count + 1),
            3 | 4 => nodes.push(Directory {
                name: [&b"empty"[..], &letters(at, 3)].concat(),
                files: 0,
                count: Some(*random.pick(&[0, 0, -1, 1])),
            }),
            _ => {
                let again = nodes[at].clone();
                nodes.push(Directory { files: 0, ..again });
            }
        }
    }
}

/// The entries of the directories, and a tree with their nodes as they are.
fn file(random: &mut Random, kind: Kind, version: u32, nodes: &[Directory]) -> Vec<u8> {
    let mut sorted = nodes.to_vec();
    sorted.sort_by_key(path);
    let mut file = File::new(kind, version);
    let mut entries = 0;
    for directory in &sorted {
        for i in 0..directory.files {
            file.entry(&[path(directory), letters(i, 1)].concat());
            entries += 1;
        }
    }
    let shown: Vec<&Directory> = nodes.iter().filter(|node| node.count.is_some()).collect();
    let root = if random.one_in(2) { -1 } else { entries };
    let mut data = Vec::new();
    node(kind, &mut data, b"", root, shown.len());
    for directory in shown {
        let count = directory.count.unwrap_or(-1);
        node(kind, &mut data, &directory.name, count, 0);
    }
    file.extension(b"TREE", &data);
    file.finish()
}

#[test]
fn wide_directories_get_the_simple_answers() {
    let mut refusals = [0; 17];
    for number in 0..600 {
        let mut random = Random::of(11, number);
        let mut nodes = directories(&mut random);
        if random.one_in(2) {
            change(&mut random, &mut nodes);
        }
        arrange(&mut random, &mut nodes);
        let version = *random.pick(&[2, 4]);
        let kind = Kind::ALL[number as usize % Kind::ALL.len()];
        let bytes = file(&mut random, kind, version, &nodes);
        let (mut ours, mut theirs) = (vec![1; WORKSPACE], vec![1; WORKSPACE]);
        let reply = ffi::check(kind.number(), &bytes, &mut ours);
        let simple = opponent::check(kind.number(), &bytes, &mut theirs);
        assert_eq!(reply, simple, "file {number}");
        assert_eq!(ours, theirs, "file {number}");
        refusals[reply.refusal as usize] += 1;
    }
    for refusal in [0, 15, 16] {
        assert!(refusals[refusal] > 20, "few files give {refusal}");
    }
}
