//! Inputs to compare programs on: index files, sound and damaged, and bytes that are none. Input number i of a seed is
//! always the same.

mod damage;
mod faults;
pub mod layout;
pub mod names;
pub mod records;
pub mod requests;

use crate::index_file::{letters, padding, LARGEST};
use crate::kind::Kind;
use crate::opponent;
use crate::random::Random;
use crate::replies::WORKSPACE;
use layout::{signed, Field, Layout};
use records::{Extension, Records, Undo, LEVELS, MODES};

/// Shapes of inputs: sound files, then files with a fault or damage, bytes that are no file, and sizes at a limit.
#[derive(Clone, Copy, Debug, PartialEq, Eq, PartialOrd, Ord)]
pub enum Shape {
    /// Entries, up to six.
    Few,
    /// Up to forty.
    Some,
    Hundreds,
    /// Many siblings in the cache tree; some have a fault.
    Wide,
    LongNames,
    /// Many levels of directories.
    Deep,
    BadName,
    /// Entries out of order.
    Order,
    /// A name at stage 0 and at others.
    Stages,
    /// A cache tree with a fault.
    Tree,
    /// Resolve undo with a fault.
    Undo,
    /// One extension more.
    Extension,
    /// Another N in version 4.
    Offset,
    /// One field with another value.
    Field,
    /// Several.
    Fields,
    /// Bytes changed anywhere.
    Bytes,
    Cut,
    /// Zeros from some place on.
    Zeroed,
    /// Zeros in place of the checksum, but for one byte.
    NearlyLeftOut,
    Noise,
    HeaderAndNoise,
    Limit,
    /// Made by another program.
    Stored,
}

/// Which shapes follow each other, so that each run has its share of each.
const TURN: [(Shape, usize); 21] = [
    (Shape::Few, 8),
    (Shape::Some, 4),
    (Shape::Hundreds, 1),
    (Shape::Wide, 1),
    (Shape::LongNames, 2),
    (Shape::Deep, 2),
    (Shape::BadName, 3),
    (Shape::Order, 3),
    (Shape::Stages, 2),
    (Shape::Tree, 4),
    (Shape::Undo, 2),
    (Shape::Extension, 2),
    (Shape::Offset, 1),
    (Shape::Field, 8),
    (Shape::Fields, 3),
    (Shape::Bytes, 4),
    (Shape::Cut, 6),
    (Shape::Zeroed, 4),
    (Shape::NearlyLeftOut, 1),
    (Shape::Noise, 1),
    (Shape::HeaderAndNoise, 2),
];
/// How many inputs have each shape in its share.
const TURN_LENGTH: u64 = 64;
/// One input of this number is at a limit of the sizes.
const LIMIT_TURN: u64 = 4096;
/// Small files of at most the given number of bytes are cut at every length, with and without a corrected checksum, and
/// zeroed from every place on.
const CUTS: u64 = 256;
/// One input in the given number has its checksum left out, whatever its shape.
const LEFT_OUT: usize = 8;
/// Refusals: of the checksum, and of the order of entries.
pub const WRONG_CHECKSUM: u32 = 5;
pub const ORDER: u32 = 11;
/// How many limits there are.
const LIMITS: u64 = 4;

/// What is known of check's answer.
#[derive(Clone, Copy, Debug, PartialEq, Eq)]
pub enum Known {
    Nothing,
    Accepted,
    /// A refusal and its place.
    Refused(u32, usize),
}

pub struct Input {
    pub shape: Shape,
    /// The kind of its object names, or of those that it is read with.
    pub kind: Kind,
    pub bytes: Vec<u8>,
    pub known: Known,
    /// Names of its entries, as far as they are known.
    pub names: Vec<Vec<u8>>,
    /// How many bytes are ample for what is written from it.
    pub room: usize,
}

/// The input of a seed and number.
pub fn input(seed: u64, number: u64) -> Input {
    let random = &mut Random::of(seed, number);
    let (shape, nth) = shape(number);
    let kind = kind(seed, number, shape, nth);
    let mut input = match shape {
        Shape::Few | Shape::Some | Shape::Hundreds | Shape::LongNames | Shape::Deep => {
            sound(shape, &drawn(random, kind, shape))
        }
        Shape::Wide => wide(random, kind),
        Shape::BadName => bad_name(random, kind),
        Shape::Order => disorder(random, kind),
        Shape::Stages => mixed_stages(random, kind),
        Shape::Tree => faulty_tree(random, kind),
        Shape::Undo => faulty_undo(random, kind),
        Shape::Extension => extension(random, kind),
        Shape::Offset => offset(random, kind),
        Shape::Field | Shape::Fields => fields(random, kind, shape),
        Shape::Bytes => bytes(random, kind),
        Shape::Cut => cut(random, kind, seed, nth),
        Shape::Zeroed => zeroed(random, kind, seed, nth),
        Shape::NearlyLeftOut => return nearly_left_out(random, kind),
        Shape::Noise | Shape::HeaderAndNoise => noise(random, kind, shape),
        Shape::Limit => limit(random, kind, nth),
        Shape::Stored => unreachable!("no number has this shape"),
    };
    if input.bytes.len() >= kind.width() && random.one_in(LEFT_OUT) {
        input.bytes = kind.left_out(kind.body(&input.bytes));
    }
    input
}

/// The input of bytes that are given.
pub fn stored(kind: Kind, bytes: &[u8]) -> Input {
    let work = &mut vec![0; WORKSPACE];
    let mut names = Vec::new();
    for k in 0..opponent::check(kind.number(), bytes, work).entries {
        let name = opponent::entry(kind.number(), bytes, work, k).name;
        let buffer = if name.buffer == 2 { &work[..] } else { bytes };
        names.push(buffer[name.offset..name.offset + name.length].to_vec());
    }
    named(Shape::Stored, kind, names, bytes.to_vec())
}

/// The kind of the n-th input of a shape. All cuts of a file have one, and all its zeroed tails; each limit has all in
/// turn.
fn kind(seed: u64, number: u64, shape: Shape, nth: u64) -> Kind {
    let drawn = match shape {
        Shape::Cut => (nth / (2 * CUTS)) as usize,
        Shape::Zeroed => (nth / CUTS) as usize,
        Shape::Limit => (nth / LIMITS) as usize,
        _ => Random::of(!seed, !number).below(Kind::ALL.len()),
    };
    Kind::ALL[drawn % Kind::ALL.len()]
}

/// The shape of a number, and how many of that shape are before it.
fn shape(number: u64) -> (Shape, u64) {
    if number % LIMIT_TURN == LIMIT_TURN - 1 {
        return (Shape::Limit, number / LIMIT_TURN);
    }
    let (turn, mut place) = (number / TURN_LENGTH, number * 37 % TURN_LENGTH);
    for (shape, share) in TURN {
        if place < share as u64 {
            return (shape, turn * share as u64 + place);
        }
        place -= share as u64;
    }
    unreachable!("the shares make up a turn")
}

// ---- sound files

/// Records with entries as the shape says.
pub fn drawn(random: &mut Random, kind: Kind, shape: Shape) -> Records {
    let version = 2 + random.below(3) as u32;
    let count = match shape {
        Shape::Few => random.below(7),
        Shape::Some => random.below(40),
        Shape::Hundreds => 100 + random.below(250),
        _ => 1 + random.below(6),
    };
    let depth = 1 + random.below(4);
    let name = |k| match shape {
        Shape::LongNames if k % 2 == 0 => names::long(random),
        Shape::Deep => deep_name(random),
        _ => names::sound(random, depth),
    };
    let names = (0..count).map(name).collect();
    let entries = records::entries(random, version, names);
    records::records(random, kind, version, entries)
}

/// Hundreds of directories in any order, some with thousands beside them that no entry is in. One in three has a fault.
fn wide(random: &mut Random, kind: Kind) -> Input {
    let version = 2 + random.below(3) as u32;
    let (count, width) = (50 + random.below(400), 1 + random.below(5));
    let name = |_| {
        let directory = letters(random.below(26usize.pow(width as u32)), width);
        [&directory[..], b"/", &names::component(random)].concat()
    };
    let names = (0..count).map(name).collect();
    let entries = records::entries(random, version, names);
    let mut nodes = records::tree(random, &entries, LEVELS);
    if random.one_in(4) {
        let count = 1 + random.below(5000);
        records::crowd(random, &mut nodes, count);
    }
    let fault = random.one_in(3);
    if fault {
        faults::nodes(random, &mut nodes);
    }
    let records = Records {
        kind,
        version,
        entries,
        extensions: vec![Extension::Tree(nodes)],
    };
    match fault {
        true => laid_out(Shape::Wide, &records),
        false => sound(Shape::Wide, &records),
    }
}

/// A name some levels down, often around the last level.
fn deep_name(random: &mut Random) -> Vec<u8> {
    let levels = match random.one_in(2) {
        true => random.below(LEVELS),
        false => LEVELS - 4 + random.below(8),
    };
    let directory = *random.pick(&[b"d/", b"e/"]);
    [directory.repeat(levels), names::component(random)].concat()
}

fn sound(shape: Shape, records: &Records) -> Input {
    Input {
        known: Known::Accepted,
        ..laid_out(shape, records)
    }
}

/// The records' file, whether it is sound or not.
fn laid_out(shape: Shape, records: &Records) -> Input {
    let body = Layout::new(records).body();
    input_of(shape, records, signed(records.kind, body, true))
}

fn input_of(shape: Shape, records: &Records, bytes: Vec<u8>) -> Input {
    let names = records.entries.iter().map(|e| e.name.clone());
    named(shape, records.kind, names.collect(), bytes)
}

fn named(shape: Shape, kind: Kind, names: Vec<Vec<u8>>, bytes: Vec<u8>) -> Input {
    let spelled: usize = names.iter().map(|name| name.len() + 100).sum();
    let room = bytes.len() + spelled + names::LONGEST + 200;
    Input {
        shape,
        kind,
        bytes,
        known: Known::Nothing,
        names,
        room,
    }
}

// ---- damaged files

/// Mostly a small file, and now and then one that has the rarer parts.
fn victim(random: &mut Random, kind: Kind) -> Records {
    let shape = match random.below(16) {
        0 => Shape::Some,
        1 => Shape::LongNames,
        2 => Shape::Deep,
        _ => Shape::Few,
    };
    drawn(random, kind, shape)
}

fn right_checksum(random: &mut Random) -> bool {
    !random.one_in(16)
}

/// An entry with a bad name, in its place among the others. One in three ends with that entry, and lacks bytes of it.
fn bad_name(random: &mut Random, kind: Kind) -> Input {
    let mut records = victim(random, kind);
    let name = names::bad(random);
    let entry = records::entry(random, records.version, name, 0);
    let place = records.entries.partition_point(|e| e.name < entry.name);
    records.entries.insert(place, entry);
    if !random.one_in(3) {
        return laid_out(Shape::BadName, &records);
    }
    records.entries.truncate(place + 1);
    records.extensions.clear();
    let mut body = Layout::new(&records).body();
    body.truncate(body.len() - 1 - random.below(8));
    input_of(Shape::BadName, &records, signed(kind, body, true))
}

/// Entries out of order.
fn disorder(random: &mut Random, kind: Kind) -> Input {
    let mut records = victim(random, kind);
    faults::order(random, &mut records.entries);
    laid_out(Shape::Order, &records)
}

/// A name at stage 0 and at others. One in three has an earlier fault in the entry that may not come after stage 0.
fn mixed_stages(random: &mut Random, kind: Kind) -> Input {
    let mut records = victim(random, kind);
    let second = faults::stages(random, records.version, &mut records.entries);
    let number = match random.one_in(3) {
        true => faults::head(random, &mut records.entries[second]),
        false => ORDER,
    };
    let layout = Layout::new(&records);
    let place = layout.place(layout.parts_of(Field::Entry)[second]);
    Input {
        known: Known::Refused(number, place),
        ..input_of(Shape::Stages, &records, signed(kind, layout.body(), true))
    }
}

/// A cache tree with a fault; one in six may have too many levels instead.
fn faulty_tree(random: &mut Random, kind: Kind) -> Input {
    let deep = random.one_in(6);
    let shape = match deep {
        true => Shape::Deep,
        false => *random.pick(&[Shape::Few, Shape::Some]),
    };
    let mut records = drawn(random, kind, shape);
    let levels = if deep { LEVELS + 3 } else { LEVELS };
    let mut nodes = records::tree(random, &records.entries, levels);
    if !deep {
        faults::nodes(random, &mut nodes);
    }
    let others = |extension: &Extension| !matches!(extension, Extension::Tree(_));
    records.extensions.retain(others);
    records.extensions.push(Extension::Tree(nodes));
    laid_out(Shape::Tree, &records)
}

/// Resolve undo with a fault.
fn faulty_undo(random: &mut Random, kind: Kind) -> Input {
    let mut records = victim(random, kind);
    let mut undo = records::undo(random);
    faults::undo(random, &mut undo);
    let others = |extension: &Extension| !matches!(extension, Extension::Undo(_));
    records.extensions.retain(others);
    records.extensions.push(Extension::Undo(undo));
    laid_out(Shape::Undo, &records)
}

/// One more extension at the end.
fn extension(random: &mut Random, kind: Kind) -> Input {
    let records = victim(random, kind);
    let layout = Layout::new(&records);
    let body = [layout.body(), damage::extension(random, &layout)].concat();
    input_of(Shape::Extension, &records, signed(kind, body, true))
}

/// Another N in a file of version 4 with long names.
fn offset(random: &mut Random, kind: Kind) -> Input {
    let mut records = drawn(random, kind, Shape::LongNames);
    records.version = 4;
    let mut layout = Layout::new(&records);
    damage::offset(random, &mut layout);
    input_of(Shape::Offset, &records, signed(kind, layout.body(), true))
}

/// One field with another value, or several.
fn fields(random: &mut Random, kind: Kind, shape: Shape) -> Input {
    let records = victim(random, kind);
    let mut layout = Layout::new(&records);
    let times = match shape {
        Shape::Fields => 2 + random.below(3),
        _ => 1,
    };
    for _ in 0..times {
        damage::field(random, &mut layout);
    }
    let right = right_checksum(random);
    input_of(shape, &records, signed(kind, layout.body(), right))
}

/// Bytes changed anywhere: before the checksum is made, or seldom behind that.
fn bytes(random: &mut Random, kind: Kind) -> Input {
    let records = victim(random, kind);
    let mut body = Layout::new(&records).body();
    for _ in 0..1 + random.below(3) {
        damage::bytes(random, &mut body);
    }
    let mut file = signed(kind, body, true);
    if random.one_in(12) {
        damage::bytes(random, &mut file);
    }
    input_of(Shape::Bytes, &records, file)
}

/// The n-th cut: each small file has its turn to be cut at every length, as it is and with a corrected checksum.
fn cut(random: &mut Random, kind: Kind, seed: u64, nth: u64) -> Input {
    let (turn, place) = (nth / (2 * CUTS), nth % (2 * CUTS));
    let (length, corrected) = ((place / 2) as usize, place % 2 == 1);
    let (records, mut file, length) =
        file_and_place(random, kind, &mut Random::of(!seed, turn), length);
    file.truncate(length);
    if corrected {
        file = signed(kind, file, true);
    }
    input_of(Shape::Cut, &records, file)
}

/// The n-th file that ends in zeros: each small one has its turn to be zeroed from every place on.
fn zeroed(random: &mut Random, kind: Kind, seed: u64, nth: u64) -> Input {
    let small = &mut Random::of(!seed, !(nth / CUTS));
    let (records, mut file, place) = file_and_place(random, kind, small, (nth % CUTS) as usize);
    file[place..].fill(0);
    input_of(Shape::Zeroed, &records, file)
}

/// A small file, drawn by its own numbers, and a place in it. Where that is behind its end, a longer file and any place,
/// often near the end.
fn file_and_place(
    random: &mut Random,
    kind: Kind,
    small: &mut Random,
    place: usize,
) -> (Records, Vec<u8>, usize) {
    let mut few = drawn(small, kind, Shape::Few);
    few.entries.truncate(2);
    let few = records::records(small, kind, few.version, few.entries);
    let file = signed(kind, Layout::new(&few).body(), true);
    if place < file.len() {
        return (few, file, place);
    }
    let records = victim(random, kind);
    let file = signed(kind, Layout::new(&records).body(), true);
    let most = match random.one_in(2) {
        true => file.len(),
        false => file.len().min(100),
    };
    let place = file.len() - 1 - random.below(most);
    (records, file, place)
}

/// A sound file but for zeros in place of its checksum, of which one is another byte.
fn nearly_left_out(random: &mut Random, kind: Kind) -> Input {
    let records = victim(random, kind);
    let mut file = kind.left_out(&Layout::new(&records).body());
    let place = file.len() - 1 - random.below(kind.width());
    file[place] = match random.one_in(2) {
        true => 1 << random.below(8),
        false => 1 + random.below(255) as u8,
    };
    Input {
        known: Known::Refused(WRONG_CHECKSUM, file.len() - kind.width()),
        ..input_of(Shape::NearlyLeftOut, &records, file)
    }
}

// ---- no files

fn noise(random: &mut Random, kind: Kind, shape: Shape) -> Input {
    let length = random.below(300);
    let mut bytes = random.bytes(length);
    if shape == Shape::HeaderAndNoise {
        let version = 2 + random.below(3) as u32;
        let mut body = b"DIRC".to_vec();
        body.extend(version.to_be_bytes());
        body.extend((random.below(3) as u32).to_be_bytes());
        body.extend(bytes);
        bytes = signed(kind, body, right_checksum(random));
    }
    Input {
        shape,
        kind,
        room: bytes.len() + names::LONGEST + 200,
        bytes,
        known: Known::Nothing,
        names: Vec::new(),
    }
}

// ---- limits

/// Mostly a file that is too long, or just not, with a version that there is not; one in four of version 4 that has, in
/// version 2, about as many bytes as a file may.
fn limit(random: &mut Random, kind: Kind, nth: u64) -> Input {
    if nth % LIMITS == 1 {
        return about_the_largest(random, kind);
    }
    let more = [1, 0, 0, 2][(nth % LIMITS) as usize];
    let mut bytes = vec![0; LARGEST + more];
    bytes[..12].copy_from_slice(b"DIRC\0\0\0\x05\0\0\0\0");
    Input {
        shape: Shape::Limit,
        kind,
        bytes,
        known: Known::Nothing,
        names: Vec::new(),
        room: 1000,
    }
}

fn about_the_largest(random: &mut Random, kind: Kind) -> Input {
    // What version 2 has around the entries and the path of resolve undo: the header, that of the extension, NULs and
    // modes, an object name and the checksum. The path fills what entries with the longest name leave.
    let around = 12 + 8 + 12 + 2 * kind.width();
    let fixed = 42 + kind.width() + names::LONGEST;
    let entry = fixed + padding(fixed);
    let (count, path) = ((LARGEST - around) / entry, (LARGEST - around) % entry);
    let name = |k| [vec![b'p'; names::LONGEST - 4], letters(k, 4)].concat();
    let mut entries = Vec::new();
    for k in 0..count {
        let mut entry = records::entry(random, 2, name(k), 0);
        entry.more = 0;
        entries.push(entry);
    }
    let undo = Undo {
        path: vec![b'u'; path - 1 + random.below(3)],
        modes: [MODES[0], 0, 0],
        objects: [random.array(); 3],
    };
    let records = Records {
        kind,
        version: 4,
        entries,
        extensions: vec![Extension::Undo(vec![undo])],
    };
    let mut input = sound(Shape::Limit, &records);
    input.room = LARGEST + 9;
    input
}
