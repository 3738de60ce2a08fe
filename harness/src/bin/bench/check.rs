//! Check against the simple check in Rust, and against the hash of the same bytes.

use crate::part::{progress, Part};
use crate::table::{mib, milliseconds, range, ratio, Table};
use harness::ffi::{self, Hash, HASHES};
use harness::index_file::{Order, Repository, FLAT, NESTED};
use harness::kind::Kind;
use harness::replies::{CheckReply, WORKSPACE};
use harness::{opponent, timing};
use std::cell::Cell;

const TEXT: &str = "Check against the simple check, and against the hash of the same bytes, the plain one and ours. The \
    files have twenty entries a directory and full cache trees, the subtrees in the index's order or in Git's; the \
    directories are nested, three levels deep, or flat.";
const WHY: &str = "The last column says how much of our time is the hash; the rest is done in a workspace of 8 KiB, where \
    the simple check allocates. Our SHA-1 uses more of the processor's width than the plain one, so it loses most of its \
    lead while the other half of the core is busy: a row that was measured at such a time has a higher ratio.";
/// Check may take as long as the simple check, and shall take 0.7 of its time.
const REQUIRED: f64 = 1.0;
const AIM: f64 = 0.7;

/// What was measured on a file.
struct Row {
    kind: Kind,
    version: u32,
    name: String,
    bytes: usize,
    ours: f64,
    simple: f64,
    our_hash: f64,
    plain_hash: f64,
}

impl Row {
    fn to_simple(&self) -> f64 {
        self.ours / self.simple
    }
}

pub fn figures() -> Result<Part, String> {
    let mut rows = Vec::new();
    for hash in HASHES {
        for most_bytes in [10 << 20, 16 << 20] {
            for version in [2, 4] {
                rows.extend(measure(hash, version, most_bytes)?);
            }
        }
    }
    let mut part = Part::new("Check");
    part.add(TEXT);
    part.add(table(&rows));
    part.add(verdict(&rows));
    part.add(WHY);
    for hash in HASHES {
        let rows = rows.iter().filter(|row| row.kind == hash.kind);
        add_short(&mut part, hash.kind.name(), &rows.collect::<Vec<_>>());
    }
    Ok(part)
}

/// Adds the ratios of a kind to the table at the page's head.
fn add_short(part: &mut Part, name: &str, rows: &[&Row]) {
    for version in [2, 4] {
        let ratios = rows.iter().filter(|row| row.version == version);
        part.add_short(
            &format!("check / the simple check in Rust, {name}, version {version}"),
            range(ratios.map(|row| row.to_simple())),
            format!("{REQUIRED:.2} (aim {AIM:.2})"),
        );
    }
    let to_hash = range(rows.iter().map(|row| row.ours / row.our_hash));
    part.add_short(
        &format!("check / our {name} of the same bytes"),
        to_hash,
        String::new(),
    );
}

/// The rows of one kind and version: both shapes of directories, and both orders of the cache tree.
fn measure(hash: &Hash, version: u32, most_bytes: usize) -> Result<Vec<Row>, String> {
    let kind = hash.kind;
    let mut rows = Vec::new();
    for (shape, widths) in [("nested", NESTED), ("flat", FLAT)] {
        for (order_name, order) in [("index order", Order::Index), ("Git's order", Order::Git)] {
            let (file, _) = Repository {
                kind,
                version,
                widths,
                order,
                most_entries: usize::MAX,
                most_bytes,
            }
            .lay_out();
            let name = format!("{}, version {version}, {shape}, {order_name}", kind.name());
            progress("check", &format!("{name}, {:.0} MiB", mib(file.len())));
            let [ours, simple, our_hash, plain_hash] = medians(hash, &file)?;
            rows.push(Row {
                kind,
                version,
                name,
                bytes: file.len(),
                ours,
                simple,
                our_hash,
                plain_hash,
            });
        }
    }
    Ok(rows)
}

/// The median seconds of both checks, and of our hash and plain Rust's over what is before the checksum.
fn medians(hash: &Hash, file: &[u8]) -> Result<[f64; 4], String> {
    let kind = hash.kind.number();
    let (body, _) = file.split_at(file.len() - hash.kind.width());
    let (mut work, mut simple_work) = (vec![0; WORKSPACE], vec![0; WORKSPACE]);
    let ours = Cell::new(CheckReply::default());
    let simple = Cell::default();
    let (our_hash, plain_hash) = (Cell::default(), Cell::default());
    timing::alternate(
        [
            &mut || ours.set(ffi::check(kind, file, &mut work)),
            &mut || simple.set(opponent::check(kind, file, &mut simple_work)),
            &mut || our_hash.set(hash.digest(body)),
            &mut || plain_hash.set(hash.kind.hash(body)),
        ],
        || {
            timing::same("refusals", ours.get().refusal, 0)?;
            timing::same("checks", ours.get(), simple.get())?;
            timing::same("digests", our_hash.get(), plain_hash.get())
        },
    )
}

fn table(rows: &[Row]) -> Table {
    let mut table = Table::new(&[
        "File",
        "MiB",
        "ours",
        "simple",
        "ours / simple",
        "ours / plain hash",
        "ours / our hash",
    ]);
    for row in rows {
        table.row(vec![
            row.name.clone(),
            format!("{:.1}", mib(row.bytes)),
            milliseconds(row.ours),
            milliseconds(row.simple),
            format!("{:.2}", row.to_simple()),
            ratio(row.ours, row.plain_hash),
            ratio(row.ours, row.our_hash),
        ]);
    }
    table
}

fn verdict(rows: &[Row]) -> String {
    let above = rows.iter().filter(|row| row.to_simple() > REQUIRED);
    let reached = rows.iter().filter(|row| row.to_simple() <= AIM);
    format!(
        "Of ours / simple at most {REQUIRED:.1} is required, and {} of {} rows are above. The aim is {AIM:.1}, which {} \
        rows reach.",
        above.count(),
        rows.len(),
        reached.count()
    )
}
