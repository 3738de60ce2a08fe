//! Every call stays within what it is lent, and a step outside is noticed.

#![deny(warnings)]

use harness::boundary::Boundary;
use harness::ffi::HASHES;
use harness::inputs::requests::Call;
use harness::kind::Kind;
use harness::lent::{Edge, Lent, Place};
use harness::replies::{Fields, WORKSPACE};
use harness::vectors;
use nerupazhil::raw::{self, SHA1};
use std::env;
use std::os::unix::process::ExitStatusExt;
use std::path::PathBuf;
use std::process::{Command, ExitStatus};
use std::ptr::{null, null_mut};

/// Set in a child process, which then takes the step outside.
const CHILD: &str = "NERUPAZHIL_STEP_OUTSIDE";
const SIGSEGV: i32 = 11;
/// More bytes than a vector has or is written with.
const ROOM: usize = 1 << 20;

// ---- the calls

struct Lending {
    kind: Kind,
    file: Lent,
    name: Lent,
    work: Lent,
    out: Lent,
    arrays: Boundary,
    edge: Edge,
}

impl Lending {
    fn new(edge: Edge) -> Self {
        Self {
            kind: Kind::Sha1,
            file: Lent::new("file", Place::Pages, ROOM),
            name: Lent::new("name", Place::Pages, ROOM),
            work: Lent::new("workspace", Place::Pages, ROOM),
            out: Lent::new("output", Place::Pages, ROOM),
            arrays: Boundary::new(Place::Pages),
            edge,
        }
    }

    /// Makes a call with a workspace that is just long enough, where it takes one, and sees that nothing else was
    /// written. Answers the numbers of the reply.
    fn call(&mut self, call: &Call, room: usize) -> Vec<u64> {
        let work = if call.works() { WORKSPACE } else { 0 };
        self.work.blank(work, self.edge);
        self.out.blank(room, self.edge);
        let (file, name) = (self.file.bytes(), self.name.bytes());
        let (work, out) = (self.work.bytes_mut(), self.out.bytes_mut());
        let kind = self.kind.number();
        let arrays = self.arrays.call(kind, call, file, name, work, out).unwrap();
        for lent in [&self.file, &self.name, &self.work] {
            lent.guards_stay().unwrap();
        }
        let written = if call.writes() { arrays.reply[2] } else { 0 };
        self.out.stays_after(written as usize).unwrap();
        arrays.reply
    }

    fn read(&mut self, call: Call) -> Vec<u64> {
        self.call(&call, 0)
    }

    /// Makes a call that writes, with an output far too long, one exactly long enough and one that is a byte short.
    fn write(&mut self, call: Call) {
        let long = self.call(&call, ROOM);
        if long[0] > 0 {
            return;
        }
        let length = long[2] as usize;
        assert_eq!(self.call(&call, length), long);
        assert_eq!(self.call(&call, length - 1), [20, 0, 0]);
    }

    fn calls_that_read(&mut self) {
        let checked = self.read(Call::Check);
        let last = |place: usize| {
            let count = checked[place] as u32;
            [0, count.saturating_sub(1), count, u32::MAX]
        };
        for k in last(3) {
            self.read(Call::Entry(k));
        }
        for k in last(6) {
            self.read(Call::TreeNode(k));
        }
        for k in last(8) {
            self.read(Call::UndoRecord(k));
        }
        self.read(Call::WalkStart);
        for at in (0..=self.file.bytes().len() + 1).chain([usize::MAX]) {
            self.read(Call::WalkNext(at, 1));
        }
        for hash in HASHES {
            self.read(Call::Hash(hash.kind));
        }
    }

    fn calls_that_write(&mut self) {
        let name = self.name.bytes().to_vec();
        for asked in 0..=4 {
            self.write(Call::Rewrite(asked));
            for mode in [0o100644, 0] {
                let fields = Fields {
                    mode,
                    ..Fields::default()
                };
                self.write(Call::Put(asked, name.clone(), fields));
            }
            self.write(Call::Remove(asked, name.clone(), 0));
        }
    }
}

#[track_caller]
fn every_call_stays_within(edge: Edge) {
    let mut lending = Lending::new(edge);
    let vectors = |kind| vectors::all(kind).into_iter().map(move |v| (kind, v.file));
    for (kind, file) in Kind::ALL.into_iter().flat_map(vectors) {
        lending.kind = kind;
        lending.file.read_only(&file, edge);
        lending.calls_that_read();
        for name in [&b"a/b"[..], b"", &[b'n'; 8192]] {
            lending.name.read_only(name, edge);
            lending.calls_that_write();
        }
    }
}

#[test]
fn no_call_touches_what_stands_before() {
    every_call_stays_within(Edge::Start);
}

#[test]
fn no_call_touches_what_stands_behind() {
    every_call_stays_within(Edge::End);
}

// ---- a step outside is noticed

/// Bytes that are lent, and the pointer to the first of them.
fn lend(place: Place, edge: Edge, length: usize) -> (Lent, *mut u8) {
    let mut lent = Lent::new("bytes", place, length);
    lent.blank(length, edge);
    let first = lent.bytes_mut().as_mut_ptr();
    (lent, first)
}

/// Runs the test of this name again in a process of its own, by way of another program if one is given, where it
/// takes the step; none in that process itself.
fn child(test: &str, by: &[&str], step: impl Fn()) -> Option<ExitStatus> {
    if env::var_os(CHILD).is_some() {
        step();
        return None;
    }
    let this = env::current_exe().unwrap();
    let mut words: Vec<_> = by.iter().map(PathBuf::from).collect();
    words.push(this);
    let mut command = Command::new(&words[0]);
    command.args(&words[1..]).args(["--exact", test]);
    let output = command.env(CHILD, "1").output();
    Some(output.expect("the program runs").status)
}

#[track_caller]
fn dies(test: &str, step: impl Fn()) {
    if let Some(status) = child(test, &[], step) {
        assert_eq!(status.signal(), Some(SIGSEGV), "{status}");
    }
}

#[test]
fn a_write_behind_the_last_byte_dies() {
    dies("a_write_behind_the_last_byte_dies", || {
        let (_lent, first) = lend(Place::Pages, Edge::End, 100);
        // SAFETY: none; the process ends here.
        unsafe { first.add(100).write_volatile(1) };
    });
}

#[test]
fn a_read_behind_the_last_byte_dies() {
    dies("a_read_behind_the_last_byte_dies", || {
        let (_lent, first) = lend(Place::Pages, Edge::End, 100);
        // SAFETY: none; the process ends here.
        let _read = unsafe { first.add(100).read_volatile() };
    });
}

#[test]
fn a_write_before_the_first_byte_dies() {
    dies("a_write_before_the_first_byte_dies", || {
        let (_lent, first) = lend(Place::Pages, Edge::Start, 100);
        // SAFETY: none; the process ends here.
        unsafe { first.sub(1).write_volatile(1) };
    });
}

#[test]
fn a_write_to_what_is_only_read_dies() {
    dies("a_write_to_what_is_only_read_dies", || {
        let mut lent = Lent::new("bytes", Place::Pages, 100);
        lent.read_only(&[1; 100], Edge::Start);
        // SAFETY: none; the process ends here.
        unsafe { (lent.bytes().as_ptr() as *mut u8).write_volatile(1) };
    });
}

/// The library itself, told a length that is one byte too many, dies at the edge: a digest of bytes not lent.
#[test]
fn a_call_with_a_length_too_long_dies() {
    dies("a_call_with_a_length_too_long_dies", || {
        let (_lent, first) = lend(Place::Pages, Edge::End, 100);
        let mut digest = [0; raw::DIGEST];
        // SAFETY: none; the process ends here.
        unsafe { raw::nerupazhil_sha1(first, 101, &mut digest) };
    });
}

/// Lends bytes up to a page without access, for an array that takes more.
fn short_array<T>(length: usize) -> (Lent, *mut T) {
    assert!(length < std::mem::size_of::<T>());
    let (lent, first) = lend(Place::Pages, Edge::End, length);
    (lent, first.cast())
}

#[test]
fn a_reply_that_lacks_a_number_dies() {
    dies("a_reply_that_lacks_a_number_dies", || {
        let (_lent, reply) = short_array::<[u64; 16]>(15 * 8);
        // SAFETY: none; the process ends here.
        unsafe { raw::nerupazhil_check(SHA1, null(), 0, null_mut(), 0, reply) };
    });
}

#[test]
fn fields_that_lack_a_number_die() {
    dies("fields_that_lack_a_number_die", || {
        let (_lent, fields) = short_array::<[u32; 14]>(13 * 4);
        let (mut reply, mut object) = ([0; 7], [0; raw::OBJECT]);
        // SAFETY: none; the process ends here.
        unsafe {
            raw::nerupazhil_walk_next(SHA1, null(), 0, 12, 1, &mut reply, fields, &mut object)
        };
    });
}

#[test]
fn an_object_name_that_lacks_a_byte_dies() {
    dies("an_object_name_that_lacks_a_byte_dies", || {
        let (_lent, object) = short_array::<[u8; raw::OBJECT]>(raw::OBJECT - 1);
        let (mut reply, mut fields) = ([0; 7], [0; 14]);
        // SAFETY: none; the process ends here.
        unsafe {
            raw::nerupazhil_walk_next(SHA1, null(), 0, 12, 1, &mut reply, &mut fields, object)
        };
    });
}

#[test]
fn a_write_to_a_guard_byte_is_told() {
    for (edge, step, told) in [
        (Edge::Start, 100, "bytes behind the bytes were written"),
        (Edge::End, -1, "bytes before the bytes were written"),
    ] {
        let (lent, first) = lend(Place::Pages, edge, 100);
        lent.stays_after(0).unwrap();
        // SAFETY: the byte is a guard byte, which belongs to the same memory.
        unsafe { first.offset(step).write_volatile(1) };
        assert_eq!(lent.stays_after(0), Err(told.to_string()));
    }
}

#[test]
fn a_write_to_a_byte_that_shall_stay_is_told() {
    let (mut lent, _) = lend(Place::Pages, Edge::End, 100);
    lent.bytes_mut()[70] = 0;
    lent.stays_after(71).unwrap();
    let told = "byte 70 of the bytes of 100 bytes was written";
    assert_eq!(lent.stays_after(70), Err(told.to_string()));
    assert!(lent.stays_after(101).is_err());
}

#[test]
fn valgrind_tells_a_read_behind_heap_bytes() {
    let test = "valgrind_tells_a_read_behind_heap_bytes";
    let valgrind = ["valgrind", "-q", "--error-exitcode=9"];
    let status = child(test, &valgrind, || {
        let (_lent, first) = lend(Place::Heap, Edge::End, 100);
        let mut digest = [0; raw::DIGEST];
        // SAFETY: none but that the byte behind is mapped; valgrind tells the read.
        unsafe { raw::nerupazhil_sha1(first, 101, &mut digest) };
    });
    if let Some(status) = status {
        assert_eq!(status.code(), Some(9), "{status}");
    }
}
