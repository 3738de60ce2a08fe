//! The vectors of `tests/vectors`, and folders like it: files that are made and answered by other programs.

use crate::inputs::{self, Input};
use crate::kind::Kind;
use crate::plain;
use crate::replies::{CheckReply, WriteReply};
use std::fs;
use std::path::{Path, PathBuf};

/// A file and what check answers, in the words of the vectors' table.
pub struct Vector {
    pub name: String,
    pub file: Vec<u8>,
    pub expected: String,
}

/// A file, a version to rewrite it in, and the answer, in the words of the table of `tests/vectors/versions`.
pub struct Rewriting {
    pub name: String,
    pub kind: Kind,
    pub file: Vec<u8>,
    pub asked: u32,
    pub expected: String,
}

/// One of the files of `tests/vectors` with SHA-1 names.
pub fn file(name: &str) -> Vec<u8> {
    load(&folder(), name)
}

/// All of `tests/vectors` with object names of a kind.
pub fn all(kind: Kind) -> Vec<Vector> {
    let folders: &[&str] = match kind {
        Kind::Sha1 => &["", "left-out", "stages"],
        Kind::Sha256 => &["sha256"],
    };
    let vectors = folders.iter().map(|name| of(&folder().join(name)));
    let vectors: Vec<Vector> = vectors.flatten().collect();
    assert!(vectors.len() > 50);
    vectors
}

/// The same of every kind, as inputs.
pub fn inputs() -> impl Iterator<Item = Input> {
    Kind::ALL.into_iter().flat_map(|kind| {
        let vectors = all(kind).into_iter();
        vectors.map(move |vector| inputs::stored(kind, &vector.file))
    })
}

/// All of `tests/vectors/versions`, whose rows have a name, `rewrite kind K asked N` and an answer.
pub fn rewritings() -> Vec<Rewriting> {
    let folder = folder().join("versions");
    let row = |row: &str| match row.split('\t').collect::<Vec<_>>()[..] {
        [name, call, expected] => rewriting(&folder, name, call, expected),
        _ => panic!("{row}: three columns"),
    };
    let rewritings: Vec<Rewriting> = table(&folder).lines().map(row).collect();
    assert_eq!(rewritings.len(), 19 * 3);
    rewritings
}

fn rewriting(folder: &Path, name: &str, call: &str, expected: &str) -> Rewriting {
    let words: Vec<&str> = call.split(' ').collect();
    let number = |k: usize| words[k].parse::<u32>().expect("a number");
    assert_eq!([words[0], words[1], words[3]], ["rewrite", "kind", "asked"]);
    Rewriting {
        name: name.to_string(),
        kind: Kind::of(number(2)).expect("a kind"),
        file: load(folder, name),
        asked: number(4),
        expected: expected.to_string(),
    }
}

fn table(folder: &Path) -> String {
    String::from_utf8(load(folder, "expected.tsv")).expect("a table in UTF-8")
}

/// All of a folder, whose table `expected.tsv` has a name and an answer in each row.
pub fn of(folder: &Path) -> Vec<Vector> {
    let table = table(folder);
    let rows = table.lines().map(|row| row.split_once('\t'));
    rows.map(|row| row.expect("a name and an answer"))
        .map(|(name, expected)| Vector {
            name: name.to_string(),
            file: load(folder, name),
            expected: expected.to_string(),
        })
        .collect()
}

fn folder() -> PathBuf {
    PathBuf::from(env!("CARGO_MANIFEST_DIR")).join("../tests/vectors")
}

fn load(folder: &Path, name: &str) -> Vec<u8> {
    match fs::read(folder.join(name)) {
        Ok(bytes) => bytes,
        Err(error) => panic!("{name}: {error}"),
    }
}

/// An answer of check in the words of the table.
pub fn words(reply: &CheckReply) -> String {
    let count = |there: bool, n: u32| match there {
        true => n.to_string(),
        false => "absent".to_string(),
    };
    if reply.refusal > 0 {
        return format!("refused {} at {}", reply.refusal, reply.place);
    }
    let counts = format!(
        "accepted version {} entries {} end {} nodes {} records {}",
        reply.version,
        reply.entries,
        reply.end,
        count(reply.has_tree, reply.nodes),
        count(reply.has_undo, reply.records)
    );
    counts + left_out(reply)
}

/// An answer of a call that writes, and what it wrote, in the words of the table.
pub fn words_of_written(reply: &WriteReply, written: &[u8]) -> String {
    if reply.refusal > 0 {
        return format!("refused {} at {}", reply.refusal, reply.place);
    }
    let digest = plain::sha256(written);
    let hex: String = digest.iter().map(|byte| format!("{byte:02x}")).collect();
    format!("written {} sha256 {hex}", reply.length)
}

/// What is said, after all else in the line, of a checksum that was left out.
pub fn left_out(reply: &CheckReply) -> &'static str {
    match reply.checksum_left_out {
        true => " checksum left out",
        false => "",
    }
}
