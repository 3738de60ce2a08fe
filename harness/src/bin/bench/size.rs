//! Time against file size.

use crate::calls::LOWEST;
use crate::part::{progress, Part};
use crate::plot::{Line, Panel, Spacing, BLUE, GREEN, GREY, RED};
use crate::table::{mib, milliseconds, ratio, Table};
use harness::ffi::{self, Hash};
use harness::index_file::{self, list_entry, Order, Repository};
use harness::kind::Kind;
use harness::replies::{CheckReply, WORKSPACE};
use harness::{opponent, timing};
use std::cell::Cell;

/// The object names of the files, and their hash function.
const KIND: Kind = Kind::Sha1;
/// KiB of the files.
const SIZES: [usize; 8] = [256, 512, 1024, 2048, 4096, 8192, 12288, 16384];

/// What is measured, in its order: the names and colours of the lines, and their words in the legend.
const LINES: [(&str, &str, &str); 4] = [
    ("put", RED, "put, with one new entry"),
    ("simple check", GREY, "the simple check in Rust"),
    ("check", BLUE, "check"),
    ("SHA-1", GREEN, "our SHA-1 of the same bytes"),
];

/// The length of a file, and the median seconds of each.
struct Row {
    bytes: usize,
    seconds: [f64; LINES.len()],
}

pub fn figures() -> Result<Part, String> {
    let rows: Result<Vec<Row>, String> = SIZES.into_iter().map(measure).collect();
    let rows = rows?;
    let mut part = Part::new("Time against file size");
    part.add("Files of version 2, nested, with full cache trees in the index's order. The plot shows the same figures.");
    part.add(table(&rows));
    part.panel = Some(panel(&rows));
    let largest = &rows[rows.len() - 1];
    part.add_short(
        &format!("check of {:.0} MiB, version 2", mib(largest.bytes)),
        format!("{:.1} ms", largest.seconds[2] * 1e3),
        String::new(),
    );
    Ok(part)
}

fn measure(kib: usize) -> Result<Row, String> {
    progress("size", &format!("{kib} KiB"));
    let (file, names) = Repository {
        kind: KIND,
        version: 2,
        widths: index_file::NESTED,
        order: Order::Index,
        most_entries: usize::MAX,
        most_bytes: kib << 10,
    }
    .lay_out();
    let new = [&names[names.len() / 2], &b".new"[..]].concat();
    let seconds = medians(&file, &new)?;
    Ok(Row {
        bytes: file.len(),
        seconds,
    })
}

/// The median seconds of each call on a file, where a name is put that it does not have.
fn medians(file: &[u8], new: &[u8]) -> Result<[f64; LINES.len()], String> {
    let hash_function = Hash::of(KIND).ok_or("there is no hash function")?;
    let kind = KIND.number();
    let (body, digest) = file.split_at(file.len() - KIND.width());
    let mut out = vec![0; index_file::LARGEST];
    let [mut put_work, mut simple_work, mut work] = [(); 3].map(|()| vec![0; WORKSPACE]);
    let (put, simple) = (Cell::default(), Cell::default());
    let (check, hash) = (Cell::new(CheckReply::default()), Cell::default());
    timing::alternate(
        [
            &mut || {
                let fields = list_entry(KIND);
                put.set(ffi::put(kind, file, &mut put_work, &mut out, LOWEST, new, fields).refusal);
            },
            &mut || simple.set(opponent::check(kind, file, &mut simple_work)),
            &mut || check.set(ffi::check(kind, file, &mut work)),
            &mut || hash.set(hash_function.digest(body)),
        ],
        || {
            timing::same("refusals", (put.get(), check.get().refusal), (0, 0))?;
            timing::same("checks", check.get(), simple.get())?;
            timing::same("digests", &hash.get()[..KIND.width()], digest)
        },
    )
}

fn table(rows: &[Row]) -> Table {
    let mut table = Table::new(&[
        "MiB",
        "put",
        "simple check",
        "check",
        "our SHA-1",
        "check / simple",
        "put / check",
    ]);
    for row in rows {
        let [put, simple, check, _] = row.seconds;
        let mut cells = vec![format!("{:.2}", mib(row.bytes))];
        cells.extend(row.seconds.map(milliseconds));
        cells.extend([ratio(check, simple), ratio(put, check)]);
        table.row(cells);
    }
    table
}

fn panel(rows: &[Row]) -> Panel {
    let line = |(k, &(name, colour, legend))| Line {
        name,
        legend,
        colour,
        points: points(rows, k),
    };
    Panel {
        title: "Time by file size",
        across: "MiB of the file",
        spacing: Spacing::Even,
        unit: "ms",
        lines: LINES.iter().enumerate().map(line).collect(),
        limits: Vec::new(),
    }
}

/// Mebibytes and milliseconds of the line of a number.
fn points(rows: &[Row], line: usize) -> Vec<(f64, f64)> {
    let point = |row: &Row| (mib(row.bytes), row.seconds[line] * 1e3);
    rows.iter().map(point).collect()
}
