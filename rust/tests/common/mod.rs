//! The stored vectors, and what the tests share. Each test program uses a part of it.
#![allow(dead_code)]

use std::fs;
use std::path::PathBuf;

use nerupazhil::{
    check, entry, mode, tree_node, undo_record, Checksum, Fields, Kind, ObjectName, Refusal, Stage,
    Summary, Tree, WORKSPACE,
};

/// The kinds of object names.
pub const KINDS: [Kind; 2] = [Kind::Sha1, Kind::Sha256];

/// Where the vectors are stored.
pub fn folder() -> PathBuf {
    PathBuf::from(concat!(env!("CARGO_MANIFEST_DIR"), "/../tests/vectors"))
}

/// A stored file with SHA-1 names, as real/v2-committed.
pub fn stored(name: &str) -> Vec<u8> {
    let path = folder().join(format!("{name}.index"));
    fs::read(&path).unwrap_or_else(|error| panic!("{}: {error}", path.display()))
}

/// A stored file with what check answers.
pub struct Vector {
    pub kind: Kind,
    pub name: String,
    pub file: Vec<u8>,
    pub expected: Result<Summary, Refusal>,
}

/// All stored files.
pub fn vectors() -> Vec<Vector> {
    let mut vectors = Vec::new();
    let folders = [
        (Kind::Sha1, ""),
        (Kind::Sha1, "left-out/"),
        (Kind::Sha1, "stages/"),
        (Kind::Sha256, "sha256/"),
    ];
    for (kind, below) in folders {
        let table = fs::read_to_string(folder().join(below).join("expected.tsv")).unwrap();
        vectors.extend(table.lines().map(|line| vector(kind, below, line)));
    }
    assert_eq!(vectors.len(), 192 + 78 + 80 + 79);
    vectors
}

/// The stored files that are accepted.
pub fn accepted() -> Vec<Vector> {
    let mut vectors = vectors();
    vectors.retain(|vector| vector.expected.is_ok());
    assert_eq!(vectors.len(), 39 + 5 + 5 + 5);
    vectors
}

fn vector(kind: Kind, below: &str, line: &str) -> Vector {
    let (path, answer) = line.split_once('\t').unwrap();
    let name = format!("{below}{}", path.strip_suffix(".index").unwrap());
    Vector {
        kind,
        file: stored(&name),
        name,
        expected: expected(&answer.split(' ').collect::<Vec<_>>()),
    }
}

/// `accepted version V entries N end B nodes N|absent records N|absent`, then `checksum left out` where it was; or
/// `refused NUMBER at PLACE`.
fn expected(words: &[&str]) -> Result<Summary, Refusal> {
    let number = |k: usize| words[k].parse::<u32>();
    match words[0] {
        "refused" => Err(Refusal::new(number(1).unwrap(), words[3].parse().unwrap())),
        _ => Ok(Summary {
            version: number(2).unwrap(),
            entries: number(4).unwrap(),
            end: words[6].parse().unwrap(),
            nodes: number(8).ok(),
            records: number(10).ok(),
            checksum: match &words[11..] {
                [] => Checksum::Matches,
                ["checksum", "left", "out"] => Checksum::LeftOut,
                other => panic!("{other:?}"),
            },
        }),
    }
}

/// The records of a file, read one by one.
#[derive(Debug, PartialEq)]
pub struct Records {
    pub entries: Vec<(Vec<u8>, Fields)>,
    pub nodes: Option<Vec<Node>>,
    pub undo: Option<Vec<Undo>>,
}

/// Name, level, number of subtrees, tree object.
pub type Node = (Vec<u8>, u32, u32, Option<Tree>);

/// Path, stages.
pub type Undo = (Vec<u8>, [Option<Stage>; 3]);

impl Records {
    pub fn of(kind: Kind, file: &[u8]) -> Self {
        let work = &mut [0; WORKSPACE];
        let summary = check(kind, file, work).unwrap();
        let entries = (0..summary.entries).map(|k| {
            let shown = entry(kind, file, work, k).unwrap();
            (shown.name.to_vec(), shown.fields)
        });
        Self {
            entries: entries.collect(),
            nodes: summary.nodes.map(|n| nodes(kind, file, n)),
            undo: summary.records.map(|n| undo(kind, file, n)),
        }
    }
}

fn nodes(kind: Kind, file: &[u8], count: u32) -> Vec<Node> {
    let nodes = (0..count).map(|k| tree_node(kind, file, &mut [0; WORKSPACE], k).unwrap());
    nodes
        .map(|node| (node.name.to_vec(), node.level, node.subtrees, node.tree))
        .collect()
}

fn undo(kind: Kind, file: &[u8], count: u32) -> Vec<Undo> {
    let records = (0..count).map(|k| undo_record(kind, file, &mut [0; WORKSPACE], k).unwrap());
    records
        .map(|record| (record.path.to_vec(), record.stages))
        .collect()
}

/// An object name that has one value in all its bytes.
pub fn object(kind: Kind, value: u8) -> ObjectName {
    ObjectName::try_from(&vec![value; kind.width()][..]).unwrap()
}

/// A regular file of some object.
pub fn regular(kind: Kind) -> Fields {
    Fields {
        mode: mode::REGULAR,
        object: object(kind, 0x5a),
        ..Fields::default()
    }
}

/// A file of version 2 or 4 with entries of these names, which rise.
pub fn laid_out(kind: Kind, version: u32, names: &[Vec<u8>]) -> Vec<u8> {
    let mut file = b"DIRC".to_vec();
    file.extend(version.to_be_bytes());
    file.extend((names.len() as u32).to_be_bytes());
    let mut previous = &[][..];
    for name in names {
        file.extend([0; 24]);
        file.extend(mode::REGULAR.to_be_bytes());
        file.extend(vec![0; 12 + kind.width()]);
        file.extend((name.len().min(4095) as u16).to_be_bytes());
        match version {
            4 => shortened(&mut file, previous, name),
            _ => padded(&mut file, name),
        }
        previous = name;
    }
    with_checksum(kind, file)
}

/// The file with its checksum.
pub fn with_checksum(kind: Kind, mut file: Vec<u8>) -> Vec<u8> {
    file.extend(kind.hash(&file).as_bytes());
    file
}

/// The file with zeros in place of its checksum, as Git's index.skipHash writes it.
pub fn with_zeros(kind: Kind, file: &[u8]) -> Vec<u8> {
    let mut file = file.to_vec();
    let place = file.len() - kind.width();
    file[place..].fill(0);
    file
}

/// The name, and 1 to 8 NUL up to a multiple of 8 bytes from the entry's first one, as the header has 12.
fn padded(file: &mut Vec<u8>, name: &[u8]) {
    file.extend(name);
    let length = file.len() - 12;
    file.extend(vec![0; 8 - length % 8]);
}

/// How many bytes of the previous name are dropped, what follows then, and NUL.
fn shortened(file: &mut Vec<u8>, previous: &[u8], name: &[u8]) {
    let pairs = previous.iter().zip(name);
    let kept = pairs.take_while(|(a, b)| a == b).count();
    let dropped = previous.len() - kept;
    match dropped {
        0..=127 => file.push(dropped as u8),
        _ => file.extend([(127 + dropped / 128) as u8, (dropped % 128) as u8]),
    }
    file.extend(&name[kept..]);
    file.push(0);
}

/// The number of a refusal.
pub fn number<T>(answer: Result<T, Refusal>) -> u32 {
    answer.err().map_or(0, Refusal::number)
}
