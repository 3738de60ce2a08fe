//! The boundary itself: arrays are written whole, the crate shows what they hold, kinds that there are not are refused,
//! and what is only read may overlap.

#![deny(warnings)]

use harness::boundary::TURNS;
use harness::comparison::Comparison;
use harness::index_file::{list_entry, File};
use harness::inputs::requests::{self, Call};
use harness::inputs::{self, Input};
use harness::kind::{Kind, Object, OBJECT, UNKNOWN};
use harness::lent::{Edge, Lent, Place};
use harness::random::Random;
use harness::replies::{Fields, WORKSPACE};
use harness::{answers, ffi, opponent, vectors};
use nerupazhil::calls;
use nerupazhil::raw::{self, SHA1};
use std::ptr::{null, null_mut};

mod by_crate;

use by_crate::by_crate;

/// How many drawn inputs are tried beside the vectors.
const DRAWN: u64 = 500;

answers!(by_harness, ffi);

/// The vectors and some drawn inputs, each with calls of every sort.
fn questions() -> impl Iterator<Item = (Input, Vec<Call>)> {
    let drawn = (0..DRAWN).map(|number| inputs::input(11, number));
    let all = vectors::inputs().chain(drawn);
    all.zip(0..).map(|(input, number)| {
        let checked = opponent::check(input.kind.number(), &input.bytes, &mut vec![0; WORKSPACE]);
        let calls = requests::calls(&mut Random::of(12, number), &input, &checked);
        (input, calls)
    })
}

fn lend(comparison: &mut Comparison, file: &[u8], call: &Call, edge: Edge) {
    comparison.lend_file(file, edge);
    comparison.lend_name(call.name(), edge);
}

// ---- arrays

/// On either edge, and whatever they held before, arrays hold the answer of the independent library.
#[test]
fn every_array_is_written_whole() {
    let mut comparison = Comparison::new(Place::Pages);
    for (input, calls) in questions() {
        for call in &calls {
            lend(&mut comparison, &input.bytes, call, Edge::End);
            for _ in 0..TURNS {
                let kind = input.kind.number();
                comparison.both(kind, call, WORKSPACE, input.room).unwrap();
            }
        }
    }
}

/// The harness's own calls, which other tests make, show what the arrays hold.
#[test]
fn the_harness_shows_what_the_arrays_hold() {
    let (mut work, mut out) = (vec![0; WORKSPACE], Vec::new());
    let mut comparison = Comparison::new(Place::Pages);
    for (input, calls) in questions() {
        let kind = input.kind.number();
        out.resize(input.room, 0);
        for call in &calls {
            lend(&mut comparison, &input.bytes, call, Edge::Start);
            let expected = comparison.both(kind, call, WORKSPACE, input.room);
            let shown = by_harness(kind, call, &input.bytes, call.name(), &mut work, &mut out);
            assert_eq!(shown, expected.unwrap(), "{call}");
        }
    }
}

/// The crate's replies have what the arrays have, each part in its place.
#[test]
fn the_crate_shows_what_the_arrays_hold() {
    let (mut work, mut out) = (vec![0; WORKSPACE], Vec::new());
    let mut comparison = Comparison::new(Place::Pages);
    for (input, calls) in questions() {
        let kind = input.kind;
        out.resize(input.room, 0);
        for call in &calls {
            lend(&mut comparison, &input.bytes, call, Edge::Start);
            let expected = comparison.both(kind.number(), call, WORKSPACE, input.room);
            let shown = by_crate(kind, call, &input.bytes, &mut work, &mut out);
            assert_eq!(shown, expected.unwrap(), "{call}");
        }
    }
}

// ---- kinds

/// 29, or 19 where the workspace is too short, comes before all of the file and of the request.
#[test]
fn unknown_kinds_are_refused() {
    let mut comparison = Comparison::new(Place::Pages);
    for (input, calls) in questions() {
        for call in &calls {
            lend(&mut comparison, &input.bytes, call, Edge::End);
            for kind in UNKNOWN {
                for work in [0, WORKSPACE - 1, WORKSPACE, WORKSPACE + 9] {
                    let refusal = comparison.unknown_kind(kind, call, work, 100).unwrap();
                    let short = call.works() && work < WORKSPACE;
                    let expected = match call {
                        Call::Hash(_) => None,
                        _ if short => Some(19),
                        _ => Some(29),
                    };
                    assert_eq!(refusal, expected);
                }
            }
        }
    }
}

/// The same written out, with nothing lent but a workspace and arrays.
#[test]
fn an_unknown_kind_without_a_file() {
    for kind in UNKNOWN {
        let mut work = [0xa5; WORKSPACE + 1];
        let (mut reply, mut fields) = ([7; 5], [7; 14]);
        let mut object = [7; OBJECT];
        let mut entry = |length: usize| {
            // SAFETY: the file has no byte, the workspace is at least as long as told, and the others are arrays.
            unsafe {
                raw::nerupazhil_entry(
                    kind,
                    null(),
                    0,
                    work.as_mut_ptr(),
                    length,
                    0,
                    &mut reply,
                    &mut fields,
                    &mut object,
                )
            };
            ((reply, fields, object), work)
        };
        let zeros = ([0; 14], [0; OBJECT]);
        let (arrays, work) = entry(WORKSPACE - 1);
        assert_eq!(arrays, ([19, 0, 0, 0, 0], zeros.0, zeros.1));
        assert_eq!(work, [0xa5; WORKSPACE + 1]);
        let (arrays, work) = entry(WORKSPACE);
        assert_eq!(arrays, ([29, 0, 0, 0, 0], zeros.0, zeros.1));
        assert_eq!(work[..WORKSPACE], [0; WORKSPACE]);
        assert_eq!(work[WORKSPACE], 0xa5);
    }
}

/// A step has no workspace: 29 comes first.
#[test]
fn an_unknown_kind_of_a_step() {
    for kind in UNKNOWN {
        let (mut reply, mut fields) = ([7; 7], [7; 14]);
        let mut object = [7; OBJECT];
        // SAFETY: the file has no byte, and the others are arrays.
        unsafe {
            raw::nerupazhil_walk_next(
                kind,
                null(),
                0,
                usize::MAX,
                0,
                &mut reply,
                &mut fields,
                &mut object,
            )
        };
        assert_eq!(reply, [29, 0, 0, 0, 0, 0, 0]);
        assert_eq!((fields, object), ([0; 14], [0; OBJECT]));
    }
}

// ---- what put takes

const NAME: &[u8] = b"saw/cut.txt";

/// What put writes to an index without entries, with these arrays.
fn put(kind: Kind, fields: &[u32; 14], object: &Object) -> Vec<u8> {
    let file = File::new(kind, 2).finish();
    let (mut work, mut out) = ([0; WORKSPACE], [0; 256]);
    let mut reply = [u64::MAX; 3];
    // SAFETY: the pointers and lengths are those of slices, the others are arrays, and all stand apart.
    unsafe {
        raw::nerupazhil_put(
            kind.number(),
            file.as_ptr(),
            file.len(),
            work.as_mut_ptr(),
            work.len(),
            out.as_mut_ptr(),
            out.len(),
            4,
            NAME.as_ptr(),
            NAME.len(),
            fields,
            object,
            &mut reply,
        )
    };
    assert_eq!(reply[..2], [0, 0]);
    out[..reply[2] as usize].to_vec()
}

/// What the independent library writes.
fn expected(kind: Kind, fields: Fields) -> Vec<u8> {
    let file = File::new(kind, 2).finish();
    let (mut work, mut out) = ([0; WORKSPACE], [0; 256]);
    let reply = opponent::put(kind.number(), &file, &mut work, &mut out, 4, NAME, fields);
    out[..reply.length].to_vec()
}

#[test]
fn any_number_but_0_sets_a_flag() {
    for (kind, flags) in Kind::ALL
        .into_iter()
        .flat_map(|kind| (0..8).map(move |n| (kind, n)))
    {
        let fields = Fields {
            assume_valid: flags & 1 > 0,
            skip_worktree: flags & 2 > 0,
            intent_to_add: flags & 4 > 0,
            ..list_entry(kind)
        };
        let expected = expected(kind, fields);
        for yes in (0..32).map(|bit| 1 << bit).chain([3, 255, u32::MAX]) {
            let written = put(kind, &fields.numbers(yes), &fields.object);
            assert_eq!(written, expected, "flags {flags}, yes {yes}");
        }
    }
}

#[test]
fn bytes_after_an_object_name_play_no_part() {
    let mut random = Random(17);
    for kind in Kind::ALL {
        let fields = list_entry(kind);
        let (numbers, width) = (fields.numbers(1), kind.width());
        let written = expected(kind, fields);
        for after in [[0; OBJECT], [0xff; OBJECT], random.array(), random.array()] {
            let mut object = fields.object;
            object[width..].copy_from_slice(&after[width..]);
            assert_eq!(put(kind, &numbers, &object), written);
        }
        let mut other = fields.object;
        other[width - 1] ^= 1;
        assert_ne!(put(kind, &numbers, &other), written);
    }
}

// ---- what may overlap

/// An index on pages that cannot be written has an extension with the fields and the object name to put, which overlap
/// too, and the entry that is to be replaced has the name.
#[test]
fn what_is_only_read_may_overlap() {
    let fields = Fields {
        gid: u32::from_ne_bytes(*b"some"),
        size: u32::from_ne_bytes(*b"name"),
        assume_valid: true,
        stage: 0,
        ..list_entry(Kind::Sha1)
    };
    let numbers = fields.numbers(5).map(u32::to_ne_bytes).concat();
    let mut file = File::new(Kind::Sha1, 2);
    let name = file.bytes.len() + 62..file.bytes.len() + 62 + NAME.len();
    file.entry(NAME);
    let numbers_at = file.bytes.len() + 8;
    let object_at = numbers_at + 4 * 7;
    file.extension(b"XTRA", &[&numbers[..], &[0x77; OBJECT]].concat());
    let file = file.finish();
    let object = Kind::Sha1.object(&file[object_at..]);

    let mut lent = Lent::new("file", Place::Pages, file.len());
    lent.read_only(&file, Edge::Start);
    let bytes = lent.bytes();
    let (mut work, mut out) = (vec![0xa5; WORKSPACE], vec![0xa5; file.len()]);
    let mut reply = [u64::MAX; 3];
    let first = bytes.as_ptr();
    assert_eq!((first as usize + numbers_at) % 4, 0);
    // SAFETY: the name, the numbers and the object name lie in the file, the numbers aligned; what is written overlaps
    // nothing.
    unsafe {
        raw::nerupazhil_put(
            SHA1,
            first,
            bytes.len(),
            work.as_mut_ptr(),
            work.len(),
            out.as_mut_ptr(),
            out.len(),
            1,
            first.add(name.start),
            name.len(),
            first.add(numbers_at).cast(),
            first.add(object_at).cast(),
            &mut reply,
        )
    };

    let fields = Fields { object, ..fields };
    let (mut their_work, mut their_out) = (vec![0xa5; WORKSPACE], vec![0xa5; file.len()]);
    let theirs = opponent::put(
        SHA1,
        &file,
        &mut their_work,
        &mut their_out,
        1,
        NAME,
        fields,
    );
    assert_eq!(reply, [0, 0, theirs.length as u64]);
    assert_eq!((work, out), (their_work, their_out));
    assert_eq!(&file[name], NAME);
    lent.guards_stay().unwrap();
}

/// The crate lets a name be a part of the file.
#[test]
fn a_name_may_be_a_part_of_the_file() {
    let mut file = File::new(Kind::Sha1, 2);
    file.entry(NAME);
    let file = file.finish();
    let (mut work, mut out) = (vec![0; WORKSPACE], vec![0; file.len()]);
    let name = &file[12 + 62..12 + 62 + NAME.len()];
    let reply = calls::remove(SHA1, &file, &mut work, &mut out, 1, name, 0);
    let empty = File::new(Kind::Sha1, 2).finish();
    assert_eq!((reply.refusal, reply.length), (0, empty.len()));
    assert_eq!(out[..empty.len()], empty);
}

// ---- empty slices

/// A null pointer with length 0 is an empty slice, also for these calls.
#[test]
fn null_pointers_are_empty_slices() {
    let (mut node, mut undo, mut start) = ([7; 9], [7; 8], [7; 4]);
    let mut objects = [[7; OBJECT]; 4];
    let [object, first, second, third] = &mut objects;
    let (file, work) = (null(), null_mut());
    // SAFETY: each length is 0, and the others are arrays.
    unsafe {
        raw::nerupazhil_tree_node(SHA1, file, 0, work, 0, 0, &mut node, object);
        raw::nerupazhil_undo_record(SHA1, file, 0, work, 0, 0, &mut undo, first, second, third);
        raw::nerupazhil_walk_start(SHA1, file, 0, work, 0, &mut start);
    }
    assert_eq!(node, [19, 0, 0, 0, 0, 0, 0, 0, 0]);
    assert_eq!(undo, [19, 0, 0, 0, 0, 0, 0, 0]);
    assert_eq!(start, [19, 0, 0, 0]);
    assert_eq!(objects, [[0; OBJECT]; 4]);
}
