//! Writes the files that take most stack to a folder, for the measurement in C on other processors.
//!
//!     stack_files FOLDER
//!
//! The folder's files.tsv has a line for each file: how many levels its tree has at most, the file, the number of its
//! kind of object names, what it is.

#![deny(warnings)]

use harness::deepest;
use harness::kind::Kind;
use std::path::Path;
use std::process::exit;
use std::{env, fs, io};

fn write(folder: &Path) -> io::Result<()> {
    fs::create_dir_all(folder)?;
    let mut rows = String::new();
    for kind in Kind::ALL {
        for (number, file) in deepest::files(kind).iter().enumerate() {
            let (levels, what, kind) = (file.levels, &file.case.name, kind.number());
            let name = format!("{kind}-{number:03}.index");
            fs::write(folder.join(&name), &file.case.bytes)?;
            rows += &format!("{levels}\t{name}\t{kind}\t{what}\n");
        }
    }
    fs::write(folder.join("files.tsv"), rows)
}

fn main() {
    let arguments: Vec<String> = env::args().skip(1).collect();
    if arguments.len() != 1 {
        eprintln!("usage: stack_files FOLDER");
        exit(2);
    }
    if let Err(error) = write(Path::new(&arguments[0])) {
        eprintln!("stack_files: {}: {error}", arguments[0]);
        exit(1);
    }
}
