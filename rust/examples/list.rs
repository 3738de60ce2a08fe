//! Lists an index of up to 16 MiB, with the lines of the listing program.
//!
//!     cargo run --example list -- .git/index
//!
//! Exit status: 0 listed, 1 refused or failed, 2 wrong use. After a refusal the listing is the line 'refused NUMBER at
//! PLACE' alone; what it means is told on standard error.

#[path = "save/load.rs"]
mod load;

use std::env;
use std::io::{self, Write};
use std::path::Path;
use std::process::ExitCode;

use nerupazhil::{Checksum, Entry, Index, Refusal, Summary, WORKSPACE};

fn main() -> ExitCode {
    let arguments: Vec<_> = env::args_os().skip(1).collect();
    let path = match &arguments[..] {
        [path] => Path::new(path),
        _ => {
            eprintln!("usage: list INDEX");
            return ExitCode::from(2);
        }
    };
    match list(path) {
        Ok(()) => ExitCode::SUCCESS,
        Err(failure) => {
            match failure {
                Failure::Refused(refusal) => eprintln!("list: {}: {refusal}", path.display()),
                Failure::Read(error) => eprintln!("list: {}: {error}", path.display()),
                Failure::Write(error) => eprintln!("list: standard output: {error}"),
            }
            ExitCode::FAILURE
        }
    }
}

/// Lists the index at a path to standard output.
fn list(path: &Path) -> Result<(), Failure> {
    let file = load::load(path).map_err(Failure::Read)?;
    let mut out = io::BufWriter::new(io::stdout().lock());
    let listed = match Index::read(&file) {
        Ok(index) => print_index(&index, &mut out),
        Err(refusal) => {
            let (number, place) = (refusal.number(), refusal.place());
            writeln!(out, "refused {number} at {place}")?;
            Err(Failure::Refused(refusal))
        }
    };
    // A listing that did not get out whole is a failure.
    out.flush()?;
    listed
}

fn print_index(index: &Index<'_>, out: &mut impl Write) -> Result<(), Failure> {
    let summary = index.summary();
    let (version, entries) = (summary.version, summary.entries);
    let checksum = match summary.checksum {
        Checksum::Matches => "",
        Checksum::LeftOut => " checksum left out",
    };
    writeln!(out, "version {version} entries {entries}{checksum}")?;
    match index.entries() {
        Ok(mut walk) => walk.try_for_each(|entry| print_entry(&entry, out))?,
        Err(_) => print_one_by_one(index, out)?,
    }
    Ok(print_extensions(&summary, out)?)
}

/// Entries of version 4 whose names are too long for a walk: each takes a check of the whole file.
fn print_one_by_one(index: &Index<'_>, out: &mut impl Write) -> Result<(), Failure> {
    let mut work = [0; WORKSPACE];
    for k in 0..index.summary().entries {
        print_entry(&index.entry(&mut work, k)?, out)?;
    }
    Ok(())
}

/// Mode, object name, stage, tab, name.
fn print_entry(entry: &Entry<'_>, out: &mut impl Write) -> io::Result<()> {
    let fields = &entry.fields;
    write!(
        out,
        "{:06o} {} {}\t",
        fields.mode, fields.object, fields.stage
    )?;
    for &byte in entry.name {
        print_byte(byte, out)?;
    }
    writeln!(out)
}

/// Bytes below 32, the backslash and bytes above 126 are a backslash and three octal digits.
fn print_byte(byte: u8, out: &mut impl Write) -> io::Result<()> {
    match byte {
        0..=31 | b'\\' | 127..=255 => write!(out, "\\{byte:03o}"),
        _ => out.write_all(&[byte]),
    }
}

fn print_extensions(summary: &Summary, out: &mut impl Write) -> io::Result<()> {
    match summary.nodes {
        Some(nodes) => writeln!(out, "cache tree {nodes} nodes")?,
        None => writeln!(out, "cache tree none")?,
    }
    match summary.records {
        Some(records) => writeln!(out, "resolve-undo {records} paths"),
        None => writeln!(out, "resolve-undo none"),
    }
}

/// Why an index was not listed.
enum Failure {
    Refused(Refusal),
    Read(io::Error),
    Write(io::Error),
}

impl From<Refusal> for Failure {
    fn from(refusal: Refusal) -> Self {
        Self::Refused(refusal)
    }
}

impl From<io::Error> for Failure {
    fn from(error: io::Error) -> Self {
        Self::Write(error)
    }
}
