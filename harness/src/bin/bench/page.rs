//! The page of all figures, docs/SPEED.md, and its plot. Both are written whole, at the end.

use crate::machine;
use crate::part::Part;
use crate::plot;
use crate::table::Table;
use harness::timing;
use std::fs;

const PAGE: &str = "docs/SPEED.md";
const PLOT: &str = "docs/speed.svg";

const INTRODUCTION: &str = "`./bench` measured this, and wrote the page and its plot whole. `./bench size`, `check`, `hash`, \
    `entries`, `edits`, `versions`, `stack` and `hostile` print one section each, in the page's order, and write nothing.";
/// What the plot shows, for those who do not see it.
const PLOT_WORDS: &str = "Left: the time of put, the simple check, check and SHA-1 against the size of the file. Right: \
    the stack of check against the levels of the cache tree.";

/// Looks early whether the files can be written at the end.
pub fn writable() -> Result<(), String> {
    for path in [PAGE, PLOT] {
        let new = new_file(path, "")?;
        fs::remove_file(&new).map_err(|error| format!("cannot remove {new}: {error}"))?;
    }
    Ok(())
}

pub fn write(parts: Vec<Part>) -> Result<(), String> {
    let text = page(&parts);
    let panels: Vec<plot::Panel> = parts.into_iter().filter_map(|part| part.panel).collect();
    let drawing = plot::draw(&panels, PLOT_WORDS);
    let new = [new_file(PAGE, &text)?, new_file(PLOT, &drawing)?];
    for (new, path) in new.iter().zip([PAGE, PLOT]) {
        fs::rename(new, path).map_err(|error| format!("cannot write {path}: {error}"))?;
    }
    eprintln!("bench: {PAGE} and {PLOT} are written");
    Ok(())
}

/// Writes a file beside the one that it is to replace, and answers its path.
fn new_file(path: &str, text: &str) -> Result<String, String> {
    let new = format!("{path}.new");
    match fs::write(&new, text) {
        Ok(()) => Ok(new),
        Err(error) => Err(format!("cannot write {new}: {error}")),
    }
}

fn page(parts: &[Part]) -> String {
    let mut short = Table::new(&["What", "measured", "shall be at most"]);
    for row in parts.iter().flat_map(|part| &part.short) {
        short.row(row.clone());
    }
    let sections: Vec<&str> = parts.iter().map(|part| part.text.as_str()).collect();
    format!(
        "# Speed\n\n{INTRODUCTION}\n\n![{PLOT_WORDS}](speed.svg)\n\n{}\n{short}\n{}\n{}",
        head("./bench"),
        how(),
        sections.join("\n")
    )
}

/// What was run, and on what.
pub fn head(command: &str) -> String {
    format!("- Command: `{command}`\n{}", machine::description())
}

/// How the figures are taken, and what they are compared with.
fn how() -> String {
    format!(
        "## How the figures are taken\n\n\
        A time is the processor's time of the thread that calls, and the median of {} runs where nothing else is said. \
        The calls of a row run in turn in one process, and after each turn their answers are compared. All is from one \
        run of one build. On a shared machine the speed moves: in repeated runs a ratio moved by up to a quarter, up \
        and down. A KiB is 1,024 bytes and a MiB 1,048,576.\n\n\
        - **Ours** is the static library of the proved crate `nerupazhil`.\n\
        - **The simple check** is `harness/src/opponent`: straightforward Rust with the same answers, which hashes \
        once and goes over the entries and the tree once each.\n\
        - **The plain hash functions** are `harness/src/plain.rs`: loops over 80 words for SHA-1 and over 64 for \
        SHA-256, in Rust. The simple check uses them.\n\n\
        All are built for release, and none uses special processor instructions.\n",
        timing::RUNS
    )
}
