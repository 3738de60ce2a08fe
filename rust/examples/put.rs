//! Puts a record into an index and saves it.
//!
//!     cargo run --example put -- .git/index 100644 ce013625030ba8dba906f756967f9e9ca394464a saw/cut.txt
//!
//! The record takes the place of the one of its name and stage, or is added. As after 'git update-index --cacheinfo',
//! its times and the like are zero, so that Git looks at the file itself when it is asked next. A version 4 index stays
//! one; another becomes 2 or 3, as it needs, since it may be there for an older reader. Stage 0 beside a conflict of
//! that name, and a stage of a conflict beside stage 0, are refused with 11: what is there has to be removed first.
//!
//! Exit status: 0 saved, 1 refused or failed, 2 wrong use. After 1 the index is as it was, unless the message says that
//! it is changed.

mod save;

use std::env;
use std::ffi::{OsStr, OsString};
use std::os::unix::ffi::OsStrExt;
use std::path::Path;
use std::process::ExitCode;

use nerupazhil::{Fields, Index, ObjectName, DIGEST};
use save::SaveError;

fn main() -> ExitCode {
    let arguments: Vec<_> = env::args_os().skip(1).collect();
    let request = match Request::parse(&arguments) {
        Ok(request) => request,
        Err(wrong) => {
            eprintln!("put: {wrong}\nusage: put INDEX MODE OBJECT NAME [STAGE]");
            return ExitCode::from(2);
        }
    };
    match request.run() {
        Ok(()) => ExitCode::SUCCESS,
        Err(error) => {
            eprintln!("put: {}: {error}", request.index.display());
            ExitCode::FAILURE
        }
    }
}

// ---- the command line

struct Request<'a> {
    index: &'a Path,
    name: &'a [u8],
    fields: Fields,
}

impl<'a> Request<'a> {
    /// Whether a mode or a stage is one that a record can have is left to the library.
    fn parse(arguments: &'a [OsString]) -> Result<Self, &'static str> {
        let zero = OsStr::new("0");
        let (index, mode, object, name, stage) = match arguments {
            [index, mode, object, name] => (index, mode, object, name, zero),
            [index, mode, object, name, stage] => (index, mode, object, name, stage.as_os_str()),
            _ => return Err("four or five arguments are needed"),
        };
        let mode = parse_number(mode, 8).ok_or("MODE is not an octal number such as 100644")?;
        let object = parse_object(object).ok_or("OBJECT is not 40 hex digits")?;
        let stage = parse_number(stage, 10).ok_or("STAGE is not a number from 0 to 3")?;
        Ok(Self {
            index: Path::new(index),
            name: name.as_bytes(),
            fields: Fields {
                mode,
                object,
                stage,
                ..Fields::default()
            },
        })
    }
}

/// A number in digits alone, below 2^32.
fn parse_number(text: &OsStr, base: u32) -> Option<u32> {
    let digits = text.to_str()?;
    match digits.bytes().all(|byte| byte.is_ascii_digit()) {
        true => u32::from_str_radix(digits, base).ok(),
        false => None,
    }
}

fn parse_object(text: &OsStr) -> Option<ObjectName> {
    let mut object = [0; DIGEST];
    let digits = text.as_bytes();
    if digits.len() != 2 * object.len() {
        return None;
    }
    for (byte, pair) in object.iter_mut().zip(digits.chunks(2)) {
        *byte = hex_digit(pair[0])? * 16 + hex_digit(pair[1])?;
    }
    Some(object.into())
}

fn hex_digit(digit: u8) -> Option<u8> {
    char::from(digit).to_digit(16).map(|value| value as u8)
}

// ---- the change

impl Request<'_> {
    fn run(&self) -> Result<(), SaveError> {
        save::edit(self.index, |file| {
            let index = Index::read(file)?;
            index.with(self.name, &self.fields, index.summary().version_kept())
        })
    }
}
