//! Entry k beside check, and a walk beside entry k.

use crate::part::{progress, Part};
use crate::table::{beside, milliseconds, nanoseconds, Table};
use harness::index_file::{self, Order, Repository};
use harness::kind::Kind;
use harness::replies::{Fields, Name, StartReply, StepReply, WORKSPACE};
use harness::{ffi, timing};
use std::cell::{Cell, RefCell};

/// The object names of the files.
const KIND: Kind = Kind::Sha1;
const ENTRIES: u32 = 100_000;
/// Every entry whose number this divides is compared in a walk with those that entry k shows.
const STRIDE: u32 = 1000;

pub fn figures() -> Result<Part, String> {
    let mut part = Part::new("Single entries and a walk");
    part.add("Entry k in a file of 100,000 entries; in brackets, the multiple of check's time.");
    part.add(single_entries()?);
    part.add("A walk over 100,000 entries of version 2, beside entry k for a hundred of them.");
    part.add(walk()?);
    Ok(part)
}

fn single_entries() -> Result<Table, String> {
    let mut table = Table::new(&["File", "check", "the first", "the middle", "the last"]);
    for version in [2, 4] {
        progress("entries", &format!("single entries, version {version}"));
        let (file, names) = file(version);
        let times = any_entry(&file, &names)?;
        let mut cells = vec![format!("version {version}"), milliseconds(times[0])];
        cells.extend(times[1..].iter().map(|&time| beside(time, times[0])));
        table.row(cells);
    }
    Ok(table)
}

fn file(version: u32) -> (Vec<u8>, Vec<Vec<u8>>) {
    Repository {
        kind: KIND,
        version,
        widths: index_file::NESTED,
        order: Order::Index,
        most_entries: ENTRIES as usize,
        most_bytes: index_file::LARGEST,
    }
    .lay_out()
}

/// The median seconds of check, and of entry for the first, the middle and the last entry.
fn any_entry(file: &[u8], names: &[Vec<u8>]) -> Result<[f64; 4], String> {
    let work = RefCell::new(vec![0; WORKSPACE]);
    let accepted = Cell::new(false);
    let all_right = Cell::new(true);
    let entry = |k: u32| {
        let answer = ffi::entry(KIND.number(), file, &mut work.borrow_mut(), k);
        let right = shown(file, &work.borrow(), answer.name) == names[k as usize];
        all_right.set(all_right.get() && right);
    };
    timing::alternate(
        [
            &mut || {
                accepted.set(ffi::check(KIND.number(), file, &mut work.borrow_mut()).refusal == 0)
            },
            &mut || entry(0),
            &mut || entry(ENTRIES / 2),
            &mut || entry(ENTRIES - 1),
        ],
        || {
            timing::same(
                "accepted, names",
                (accepted.get(), all_right.get()),
                (true, true),
            )
        },
    )
}

/// The bytes that an answer shows as a name.
pub fn shown<'a>(file: &'a [u8], work: &'a [u8], name: Name) -> &'a [u8] {
    let buffer = if name.buffer == 2 { work } else { file };
    &buffer[name.offset..name.offset + name.length]
}

fn walk() -> Result<Table, String> {
    progress("entries", "a walk");
    let (file, _) = file(2);
    let [start, walk, entries] = walk_and_entries(&file)?;
    let step = walk / f64::from(ENTRIES);
    let entry = entries / f64::from(ENTRIES / STRIDE);
    let mut table = Table::new(&[
        "Entries",
        "walk_start",
        "all steps",
        "a step",
        "entry k",
        "entry k / step",
    ]);
    table.row(vec![
        ENTRIES.to_string(),
        milliseconds(start),
        milliseconds(walk),
        nanoseconds(step),
        milliseconds(entry),
        format!("{:.0}", entry / step),
    ]);
    Ok(table)
}

/// The median seconds of the walk's start, of all its steps, and of entry k for each of those that are compared.
fn walk_and_entries(file: &[u8]) -> Result<[f64; 3], String> {
    let work = RefCell::new(vec![0; WORKSPACE]);
    let start = Cell::default();
    let (walked, single) = (RefCell::default(), RefCell::default());
    timing::alternate(
        [
            &mut || start.set(ffi::walk_start(KIND.number(), file, &mut work.borrow_mut())),
            &mut || *walked.borrow_mut() = steps(file, start.get()),
            &mut || *single.borrow_mut() = entries(file, &mut work.borrow_mut()),
        ],
        || timing::same("entries", &*walked.borrow(), &*single.borrow()),
    )
}

/// Walks to the end, and keeps some of the entries.
fn steps(file: &[u8], start: StartReply) -> Vec<(Name, Fields)> {
    let mut kept = Vec::new();
    let (mut at, mut left) = (start.at, start.left);
    while left > 0 {
        let step: StepReply = ffi::walk_next(KIND.number(), file, at, left);
        if (ENTRIES - left) % STRIDE == 0 {
            kept.push((step.name, step.fields));
        }
        (at, left) = (step.at, step.left);
    }
    kept
}

/// The same entries, one by one.
fn entries(file: &[u8], work: &mut [u8]) -> Vec<(Name, Fields)> {
    let numbers = (0..ENTRIES).step_by(STRIDE as usize);
    let answers = numbers.map(|k| ffi::entry(KIND.number(), file, work, k));
    answers.map(|answer| (answer.name, answer.fields)).collect()
}
