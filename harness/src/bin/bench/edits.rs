//! Rewrite, put and remove beside check.

use crate::calls::LOWEST;
use crate::part::{progress, Part};
use crate::table::{beside, mib, milliseconds, range, Table};
use harness::index_file::{self, list_entry, Order, Repository};
use harness::kind::Kind;
use harness::replies::{WriteReply, WORKSPACE};
use harness::{ffi, timing};
use std::cell::{Cell, RefCell};

/// The object names of the files.
const KIND: Kind = Kind::Sha1;

/// The median seconds of check, rewrite in 2 and in 4, put and remove on a file.
struct Row {
    version: u32,
    bytes: usize,
    seconds: [f64; 5],
}

pub fn figures() -> Result<Part, String> {
    let mut rows = Vec::new();
    for version in [2, 4] {
        for mebibytes in [1, 2, 4, 8, 16] {
            // A file of version 4 is longer in version 2: what is written has to fit 16 MiB.
            let most_bytes = (mebibytes << 20) * 2 / version as usize;
            rows.push(measure(version, most_bytes)?);
        }
    }
    let mut part = Part::new("Rewrite, put and remove");
    part.add(
        "Files with full cache trees; in brackets, the multiple of check's time. Put and remove write version 2.",
    );
    part.add(table(&rows));
    let ratios = rows.iter().flat_map(|row| {
        let [check, _, _, put, remove] = row.seconds;
        [put / check, remove / check]
    });
    part.add_short("put, remove / check", range(ratios), String::new());
    Ok(part)
}

fn measure(version: u32, most_bytes: usize) -> Result<Row, String> {
    let (file, names) = Repository {
        kind: KIND,
        version,
        widths: index_file::NESTED,
        order: Order::Index,
        most_entries: usize::MAX,
        most_bytes,
    }
    .lay_out();
    let bytes = file.len();
    progress(
        "edits",
        &format!("version {version}, {:.1} MiB", mib(bytes)),
    );
    let seconds = medians(&file, &names[names.len() / 2])?;
    Ok(Row {
        version,
        bytes,
        seconds,
    })
}

fn table(rows: &[Row]) -> Table {
    let mut table = Table::new(&[
        "File",
        "MiB",
        "check",
        "rewrite in 2",
        "rewrite in 4",
        "put",
        "remove",
    ]);
    for row in rows {
        let [check, others @ ..] = row.seconds;
        let mut cells = vec![
            format!("version {}", row.version),
            format!("{:.1}", mib(row.bytes)),
            milliseconds(check),
        ];
        cells.extend(others.map(|seconds| beside(seconds, check)));
        table.row(cells);
    }
    table
}

/// The median seconds of each call. A name is removed, and one beside it put.
fn medians(file: &[u8], name: &[u8]) -> Result<[f64; 5], String> {
    let buffers = RefCell::new((vec![0; WORKSPACE], vec![0; index_file::LARGEST]));
    let refused = Cell::new(0);
    let write = |call: &dyn Fn(&mut [u8], &mut [u8]) -> WriteReply| {
        let (work, out) = &mut *buffers.borrow_mut();
        refused.set(refused.get().max(call(work, out).refusal));
    };
    let new = [name, b".new"].concat();
    let (kind, fields) = (KIND.number(), list_entry(KIND));
    timing::alternate(
        [
            &mut || {
                let answer = ffi::check(kind, file, &mut buffers.borrow_mut().0);
                refused.set(refused.get().max(answer.refusal));
            },
            &mut || write(&|work, out| ffi::rewrite(kind, file, work, out, 2)),
            &mut || write(&|work, out| ffi::rewrite(kind, file, work, out, 4)),
            &mut || write(&|work, out| ffi::put(kind, file, work, out, LOWEST, &new, fields)),
            &mut || write(&|work, out| ffi::remove(kind, file, work, out, LOWEST, name, 0)),
        ],
        || timing::same("refusals", refused.get(), 0),
    )
}
