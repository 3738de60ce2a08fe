//! An index in memory.

use std::fs::File;
use std::io::{self, Read};
use std::path::Path;

use nerupazhil::MAX_FILE;

/// Reads a file of up to the library's limit. Of a longer one it takes one byte more than that, so that the library
/// refuses it as too long.
pub fn load(path: &Path) -> io::Result<Vec<u8>> {
    let mut file = Vec::new();
    File::open(path)?
        .take(MAX_FILE as u64 + 1)
        .read_to_end(&mut file)?;
    Ok(file)
}
