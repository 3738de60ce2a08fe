//! What is allocated: nothing by the calls that take buffers, and no more than a result needs by the owner.

mod common;

use std::alloc::{GlobalAlloc, Layout, System};
use std::cell::Cell;

use common::{regular, stored};
use nerupazhil::{
    check, entry, put, remove, rewrite, sha1, sha256, tree_node, undo_record, walk, Index, Kind,
    Version, WORKSPACE,
};

thread_local! {
    /// The bytes that this thread has asked for.
    static ASKED: Cell<usize> = const { Cell::new(0) };
}

struct Counting;

#[global_allocator]
static COUNTING: Counting = Counting;

// SAFETY: the system's allocator does all the work. Counting allocates nothing, as the cell needs no initialization.
unsafe impl GlobalAlloc for Counting {
    unsafe fn alloc(&self, layout: Layout) -> *mut u8 {
        ASKED.with(|asked| asked.set(asked.get() + layout.size()));
        System.alloc(layout)
    }

    unsafe fn dealloc(&self, pointer: *mut u8, layout: Layout) {
        System.dealloc(pointer, layout);
    }
}

/// How many bytes a run asks for.
fn asked(run: impl FnOnce()) -> usize {
    let before = ASKED.with(Cell::get);
    run();
    ASKED.with(Cell::get) - before
}

#[test]
fn calls_with_buffers_allocate_nothing() {
    let (work, out) = (&mut [0; WORKSPACE], &mut [0; 4096]);
    for name in ["real/v2-resolve-undo", "real/v4-resolve-undo"] {
        let (kind, file) = (Kind::Sha1, &stored(name)[..]);
        let fields = regular(kind);
        let bytes = asked(|| {
            check(kind, file, work).unwrap();
            entry(kind, file, work, 0).unwrap();
            tree_node(kind, file, work, 0).unwrap();
            undo_record(kind, file, work, 0).unwrap();
            let _ = walk(kind, file, work).map(Iterator::count);
            rewrite(kind, file, work, out, Version::V4).unwrap();
            put(kind, file, work, out, Version::V4, b"newer", &fields).unwrap();
            remove(kind, file, work, out, Version::V4, b"plan", 0).unwrap();
            sha1(file);
            sha256(file);
        });
        assert_eq!(bytes, 0);
    }
}

/// The owner asks for about twice the file for a result, and keeps what the result has.
#[test]
fn the_owner_allocates_little_for_a_small_file() {
    let file = stored("real/v4-committed");
    let bytes = asked(|| {
        let index = Index::read(&file).unwrap();
        let new = index
            .with(b"new", &regular(Kind::Sha1), Version::V4)
            .unwrap();
        assert_eq!(new.capacity(), new.len());
    });
    assert!(bytes < 10 * file.len(), "{bytes}");
}

/// A file that can be walked over as it is, is not copied.
#[test]
fn the_owner_of_version_2_allocates_nothing() {
    let file = stored("real/v2-committed");
    let bytes = asked(|| assert_eq!(Index::read(&file).unwrap().entries().unwrap().count(), 20));
    assert_eq!(bytes, 0);
}
