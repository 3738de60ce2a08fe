//! The index files of real source trees, as tests/real_indexes.py made them.

use std::fs;
use std::path::Path;

const FOLDER: &str = "target/real-indexes";

/// A tree: what it is called, where it is from, and its index as Git wrote it in versions 2 and 4.
pub struct Tree {
    pub name: String,
    pub source: String,
    pub files: [Vec<u8>; 2],
}

pub fn read() -> Result<Vec<Tree>, String> {
    let rows = String::from_utf8_lossy(&file("files.tsv")?).into_owned();
    rows.lines().map(tree).collect()
}

fn tree(row: &str) -> Result<Tree, String> {
    match row.split('\t').collect::<Vec<_>>()[..] {
        [name, source, two, four] => Ok(Tree {
            name: name.to_string(),
            source: source.to_string(),
            files: [file(two)?, file(four)?],
        }),
        _ => Err(format!("{FOLDER}/files.tsv: not four fields: {row:?}")),
    }
}

fn file(name: &str) -> Result<Vec<u8>, String> {
    let path = Path::new(FOLDER).join(name);
    fs::read(&path).map_err(|error| {
        let path = path.display();
        format!("cannot read {path}, which tests/real_indexes.py makes: {error}")
    })
}
