//! The proved hash functions against plain Rust.

use crate::part::{progress, Part};
use crate::table::{milliseconds, nanoseconds, ratio, Table};
use harness::ffi::{Hash, HASHES};
use harness::kind::Object;
use harness::timing;
use std::cell::Cell;

const LONG: usize = 16 << 20;
/// How many bytes one sample of a short message hashes in all.
const SHORT_TOTAL: usize = 2 << 20;

pub fn figures() -> Result<Part, String> {
    let mut table = Table::new(&[
        "Function",
        "bytes a message",
        "ours",
        "plain",
        "ours / plain",
    ]);
    for hash in HASHES {
        for length in [LONG, 64, 300, 1000, 1024] {
            table.row(row(hash, length)?);
        }
    }
    let mut part = Part::new("Hash functions");
    part.add("Each against plain Rust (loops over 80 or 64 words, no special instructions).");
    part.add(table);
    Ok(part)
}

fn row(hash: &Hash, length: usize) -> Result<Vec<String>, String> {
    let name = hash.kind.name();
    progress("hash", &format!("{name}, {length} bytes"));
    let [ours, plain] = medians(hash, length, (SHORT_TOTAL / length).max(1))?;
    let time = match length {
        LONG => milliseconds,
        _ => nanoseconds,
    };
    Ok(vec![
        name.to_string(),
        length.to_string(),
        time(ours),
        time(plain),
        ratio(ours, plain),
    ])
}

/// The median seconds a message, of the proved function and of plain Rust.
fn medians(hash: &Hash, length: usize, messages: usize) -> Result<[f64; 2], String> {
    let message: Vec<u8> = (0..length).map(|i| (i * 7 + i / 256) as u8).collect();
    let (mut our_message, mut plain_message) = (message.clone(), message);
    let (ours, plain) = (Cell::default(), Cell::default());
    let width = hash.kind.width();
    let times = timing::alternate(
        [
            &mut || ours.set(chain(|m| hash.digest(m), width, &mut our_message, messages)),
            &mut || {
                plain.set(chain(
                    |m| hash.kind.hash(m),
                    width,
                    &mut plain_message,
                    messages,
                ))
            },
        ],
        || timing::same("digests", ours.get(), plain.get()),
    )?;
    Ok(times.map(|time| time / messages as f64))
}

/// Hashes one message after the other, each beginning with the digest of the one before, so that no call can be left
/// out. Answers the last digest.
fn chain(
    hash: impl Fn(&[u8]) -> Object,
    width: usize,
    message: &mut [u8],
    messages: usize,
) -> Object {
    for _ in 0..messages {
        let digest = hash(message);
        message[..width].copy_from_slice(&digest[..width]);
    }
    hash(&message[..width])
}
