//! How many bytes an index has in version 4 beside the lowest version, and how long it takes to write either.

use crate::machine::said;
use crate::part::{progress, Part};
use crate::rewritten::{Index, RUNS};
use crate::table::{beside, milliseconds, range, ratio, Table};
use crate::trees::{self, Tree};
use std::fs;

const HEADING: &str = "Version 4 beside the lowest version";
const REAL: &str = "Index files of real source trees, with SHA-1 names. The trees are as packages of Debian have them, and \
    this repository is at its last commit. Git put the files of each tree into an empty repository, with their modes and \
    object names and zeros for what it takes from a file system, and wrote the cache tree, as after a commit \
    (`tests/real_indexes.py`).";
const GIVEN: &str = "The index files that were given, rewritten in both versions. Extensions that the library passes over \
    are not written.";
const SIZES: &str =
    "The lowest version is 2, or 3 where an entry is marked skip-worktree or intent-to-add.";

/// An index, and for each of its files the seconds of a check and of a rewrite in the lowest version and in 4.
struct Row {
    index: Index,
    seconds: [[f64; 3]; 2],
}

impl Row {
    /// The bytes in the lowest version, and in 4.
    fn bytes(&self) -> [f64; 2] {
        let [lowest, four] = &self.index.files;
        [lowest.len() as f64, four.len() as f64]
    }

    /// The bytes in 4 to those in the lowest version.
    fn shrinks_to(&self) -> f64 {
        let [lowest, four] = self.bytes();
        four / lowest
    }

    /// A rewrite in 4 to one in the lowest version, of either file.
    fn costs(&self) -> [f64; 2] {
        self.seconds.map(|[_, lowest, four]| four / lowest)
    }

    /// The share of each entry in some bytes.
    fn each(&self, bytes: f64) -> String {
        format!("{:.1}", bytes / f64::from(self.index.entries.max(1)))
    }
}

/// The figures of the real trees.
pub fn figures() -> Result<Part, String> {
    let trees = trees::read()?;
    let indexes = trees
        .iter()
        .map(|tree| Index::new(&tree.name, &tree.files[0]));
    let rows = measure(indexes.collect::<Result<_, _>>()?)?;
    let sources = trees
        .iter()
        .map(|tree| format!("- {}: {}\n", tree.name, tree.source));
    let mut part = Part::new(HEADING);
    part.add(REAL);
    part.add(sources.collect::<String>());
    add_sizes(&mut part, &rows);
    part.add(beside_git(&trees, &rows));
    add_times(&mut part, &rows);
    add_short(&mut part, &rows);
    Ok(part)
}

/// The figures of the index files at some paths. All are looked at before the first is measured.
pub fn figures_of(paths: &[&str]) -> Result<Part, String> {
    let indexes = paths.iter().map(|path| {
        let file = fs::read(path).map_err(|error| format!("cannot read {path}: {error}"))?;
        Index::new(path, &file)
    });
    let rows = measure(indexes.collect::<Result<_, _>>()?)?;
    let mut part = Part::new(HEADING);
    part.add(GIVEN);
    add_sizes(&mut part, &rows);
    add_times(&mut part, &rows);
    Ok(part)
}

fn measure(indexes: Vec<Index>) -> Result<Vec<Row>, String> {
    let row = |index: Index| {
        progress("versions", &index.name);
        let seconds = index.seconds()?;
        Ok(Row { index, seconds })
    };
    indexes.into_iter().map(row).collect()
}

fn add_sizes(part: &mut Part, rows: &[Row]) {
    part.add(SIZES);
    part.add(size_table(rows));
}

fn add_times(part: &mut Part, rows: &[Row]) {
    part.add(format!(
        "Each of these files rewritten in the lowest version and in 4, by the median of {RUNS} runs; in brackets, the \
        multiple of the time of a check of the same file."
    ));
    part.add(time_table(rows));
    part.add(verdict(rows));
}

/// Adds the ratios to the table at the page's head.
fn add_short(part: &mut Part, rows: &[Row]) {
    let bytes = range(rows.iter().map(Row::shrinks_to));
    let seconds = range(rows.iter().flat_map(Row::costs));
    for (what, ratios) in [
        ("bytes in version 4 / in 2, real trees", bytes),
        ("rewrite in version 4 / in 2, real trees", seconds),
    ] {
        part.add_short(what, ratios, String::new());
    }
}

/// Whether Git's files have the same bytes.
fn beside_git(trees: &[Tree], rows: &[Row]) -> String {
    let git = said("git", &["--version"]);
    let others = trees.iter().zip(rows).flat_map(|(tree, row)| {
        let pairs = tree.files.iter().zip(&row.index.files).zip([2, 4]);
        let other = pairs.filter(|((git, ours), _)| git != ours);
        other.map(|((git, _), version)| {
            format!("{} in version {version} ({} bytes)", tree.name, git.len())
        })
    });
    let others: Vec<String> = others.collect();
    match others.is_empty() {
        true => format!("Ours are the bytes that {git} writes, in both versions."),
        false => format!("{git} writes other bytes of {}.", others.join(", ")),
    }
}

fn size_table(rows: &[Row]) -> Table {
    let mut table = Table::new(&[
        "File",
        "entries",
        "bytes a name",
        "lowest version",
        "bytes in it",
        "bytes in 4",
        "4 / lowest",
        "saved an entry",
    ]);
    for row in rows {
        let [lowest, four] = row.bytes();
        table.row(vec![
            row.index.name.clone(),
            row.index.entries.to_string(),
            row.each(row.index.name_bytes as f64),
            row.index.lowest.to_string(),
            lowest.to_string(),
            four.to_string(),
            format!("{:.2}", row.shrinks_to()),
            row.each(lowest - four),
        ]);
    }
    table
}

fn time_table(rows: &[Row]) -> Table {
    let mut table = Table::new(&[
        "File",
        "version",
        "check",
        "rewrite in lowest",
        "rewrite in 4",
        "4 / lowest",
    ]);
    let lines = rows.iter().flat_map(|row| {
        let versions = [row.index.lowest, 4].into_iter().zip(row.seconds);
        versions.map(move |(version, seconds)| (row, version, seconds))
    });
    for (row, version, [check, lowest, four]) in lines {
        table.row(vec![
            row.index.name.clone(),
            version.to_string(),
            milliseconds(check),
            beside(lowest, check),
            beside(four, check),
            ratio(four, lowest),
        ]);
    }
    table
}

/// What it costs to have an index in version 4 all the time.
fn verdict(rows: &[Row]) -> String {
    let checks = rows.iter().map(|row| row.seconds[1][0] / row.seconds[0][0]);
    let rewrites = rows.iter().map(|row| row.seconds[1][2] / row.seconds[0][1]);
    format!(
        "A check of the file in version 4 takes {} of the time of one in the lowest version, and a rewrite of each in its \
        own version {}.",
        range(checks),
        range(rewrites)
    )
}
