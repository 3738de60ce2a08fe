//! Requests on files that are drawn by chance, with names near those of the file.

use super::records::{file, putting, removing, rewriting};
use super::{in_versions, left_out, refused, Case, ASKED};
use crate::inputs::records::{self, Entry, Records};
use crate::inputs::{self, names, requests, Shape};
use crate::kind::Kind;
use crate::random::Random;
use std::sync::Arc;

const SHAPES: [Shape; 8] = [
    Shape::Few,
    Shape::Few,
    Shape::Few,
    Shape::Some,
    Shape::Some,
    Shape::LongNames,
    Shape::Deep,
    Shape::Hundreds,
];
/// Puts and removes on one file.
const EDITS: usize = 12;

/// The requests of one number and kind: a file in every version, with puts and removes. Every third file has its checksum
/// left out.
pub fn drawn(kind: Kind, number: u64) -> Vec<Case> {
    let random = &mut Random::of(1, number);
    let before = inputs::drawn(random, kind, SHAPES[number as usize % SHAPES.len()]);
    let mut cases = in_versions("drawn", &before, &[rewriting(&before)], &ASKED);
    for _ in 0..EDITS {
        let put = putting(&before, &draw_entry(random, &before));
        cases.extend(in_versions(
            "drawn",
            &before,
            &[put],
            &[*random.pick(&ASKED)],
        ));
        cases.push(remove(random, &before));
    }
    match number % 3 {
        2 => left_out(kind, cases),
        _ => cases,
    }
}

/// An entry to put: one that is there, as it is or at any stage, or another of a name at or near one of the file's.
fn draw_entry(random: &mut Random, before: &Records) -> Entry {
    if !before.entries.is_empty() && random.one_in(3) {
        let mut there = random.pick(&before.entries).clone();
        if random.one_in(2) {
            there.stage = random.below(4) as u16;
        }
        return there;
    }
    let name = near_name(random, before);
    let stage = *random.pick(&[0, 0, 0, 1, 2, 3]);
    records::entry(random, 3, name, stage)
}

fn near_name(random: &mut Random, before: &Records) -> Vec<u8> {
    let base = match before.entries.is_empty() {
        true => b"a/b".to_vec(),
        false => random.pick(&before.entries).name.clone(),
    };
    let name = requests::near(random, &base);
    match name.len() <= names::LONGEST {
        true => name,
        false => base,
    }
}

/// Mostly an entry that is there; else it is 18.
fn remove(random: &mut Random, before: &Records) -> Case {
    let asked = *random.pick(&ASKED);
    let (mut name, mut stage) = (near_name(random, before), random.below(4) as u16);
    if !before.entries.is_empty() && !random.one_in(3) {
        let there = random.pick(&before.entries);
        (name, stage) = (there.name.clone(), there.stage);
    }
    let there = |entry: &Entry| (&entry.name, entry.stage) == (&name, stage);
    let change = removing(before, &name, stage.into());
    if !before.entries.iter().any(there) {
        let file = Arc::new(file(before));
        return refused(before.kind, "drawn, absent", &file, change.call(asked), 18);
    }
    in_versions("drawn", before, &[change], &[asked]).remove(0)
}
