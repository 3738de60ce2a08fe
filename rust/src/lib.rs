//! Git's index file, read, checked and written by a proved library.
//!
//! An index names every file of the next commit, so a damaged one that still opens as a shorter list records the
//! missing files as deleted. Here each call first checks the whole file, and answers what is in it or refuses it
//! with a number and a place. Versions 2, 3 and 4 with SHA-1 or SHA-256 names are taken, up to 16 MiB.
//!
//! # A tour
//!
//! [`Index`] checks a file, lists its entries and makes new files:
//!
//! ```
//! # fn main() -> Result<(), Box<dyn std::error::Error>> {
//! # let folder = std::env::temp_dir().join(format!("nerupazhil-tour-{}", std::process::id()));
//! # std::fs::create_dir_all(&folder)?;
//! # let (path, lock_path) = (folder.join("index"), folder.join("index.lock"));
//! # std::fs::write(&path, nerupazhil::EMPTY)?;
//! use nerupazhil::{mode, Fields, Index};
//! use std::fs::{self, File};
//! use std::io::Write;
//!
//! // Git's own lock, taken before the index is read: meanwhile no other program changes it.
//! let mut lock = File::options().write(true).create_new(true).open(&lock_path)?;
//!
//! let file = fs::read(&path)?;
//! let index = Index::read(&file)?;
//! for entry in index.entries()? {
//!     println!("{:o} {}", entry.fields.mode, String::from_utf8_lossy(entry.name));
//! }
//!
//! let fields = Fields { mode: mode::REGULAR, object: [0x11; 20].into(), ..Fields::default() };
//! let new = index.with(b"saw/cut.txt", &fields, index.summary().version_kept())?;
//!
//! // Never over the index itself: a device that dies then would have neither.
//! lock.write_all(&new)?;
//! lock.sync_all()?;
//! fs::rename(&lock_path, &path)?;
//! # assert_eq!(Index::read(&fs::read(&path)?)?.summary().entries, 1);
//! # fs::remove_dir_all(&folder)?;
//! # Ok(())
//! # }
//! ```
//!
//! A save has to see to more: to failures on the way, permission bits, links, and the folder on the disk.
//! `examples/save` does, for programs to copy; `examples/put.rs` is one that uses it, `examples/list.rs` one that lists
//! an index.
//!
//! # Kinds
//!
//! A [`Kind`] is the hash function that gives the object names of a repository. [`Index::read`] takes a file with SHA-1
//! names, [`Index::read_kind`] one of either kind; the calls below take the kind first, as those of C do. An
//! [`ObjectName`] knows its kind, and one of another kind than the file's is refused:
//!
//! ```
//! use nerupazhil::{Index, Kind, EMPTY_SHA256};
//!
//! # let file = EMPTY_SHA256;
//! let index = Index::read_kind(Kind::Sha256, &file)?;
//! for entry in index.entries()? {
//!     println!("{} {}", entry.fields.object, String::from_utf8_lossy(entry.name));
//! }
//! # Ok::<(), nerupazhil::Refusal>(())
//! ```
//!
//! # Versions
//!
//! What is written is of the [`Version`] that is asked for. The default is version 4, where a name leaves out what it
//! has in common with the one before it: a list with long paths is shorter. An older reader takes versions 2 and 3
//! alone, and so does a [`walk()`]; for them ask for [`Version::Lowest`]. [`Index::entries`] shows a file of any version:
//! it walks over such a copy by itself.
//!
//! ```
//! use nerupazhil::{mode, walk, Fields, Index, Kind, Reason, Version, EMPTY, WORKSPACE};
//!
//! let fields = Fields { mode: mode::REGULAR, object: [0x11; 20].into(), ..Fields::default() };
//! let list = |version| {
//!     let one = Index::read(&EMPTY)?.with(b"saw/oak/cut.txt", &fields, version)?;
//!     Index::read(&one)?.with(b"saw/oak/cutter.txt", &fields, version)
//! };
//! let (new, old) = (list(Version::default())?, list(Version::Lowest)?);
//! assert_eq!((Index::read(&new)?.summary().version, new.len()), (4, 182));
//! assert_eq!((Index::read(&old)?.summary().version, old.len()), (2, 200));
//!
//! let mut work = [0; WORKSPACE];
//! assert_eq!(walk(Kind::Sha1, &old, &mut work)?.count(), 2);
//! assert_eq!(walk(Kind::Sha1, &new, &mut work).unwrap_err().reason(), Reason::Version);
//! assert!(Index::read(&new)?.entries()?.eq(Index::read(&old)?.entries()?));
//! # Ok::<(), nerupazhil::Refusal>(())
//! ```
//!
//! # Checksums
//!
//! A file with a wrong checksum is refused. One whose checksum was left out is taken, and [`Summary::checksum`] says so:
//! [`Checksum`] has what to do then.
//!
//! # Buffers
//!
//! [`check`], [`entry`], [`tree_node`], [`undo_record`], [`walk()`], [`rewrite`], [`put`] and [`remove`] allocate
//! nothing: the caller lends the file, a workspace of at least [`WORKSPACE`] bytes and, to write, an output. Names are
//! bytes, and parts of these buffers. What is in the workspace before a call is of no importance; after it, the
//! first [`WORKSPACE`] bytes are zero but for the name of a version 4 entry, and bytes past these are never touched.
//!
//! # What is proved
//!
//! The functions of the library, which [`mod@raw`] declares, are proved. This crate is not: that it hands over the
//! right buffers and shows the right parts and numbers is tested. Only [`calls`] has unsafe code. A reply that pointed
//! outside of a buffer would be a panic.
//!
//! No proof speaks of stack. In tests, a thread with 64 KiB runs the functions of [`calls`] on the files that were found
//! to take most, and one with 32 KiB on those whose cache tree has at most 16 levels, the root included. [`Index`] has
//! its workspace of 8 KiB on the stack too: it is run on the same files in threads with 16 KiB more.
//!
//! # Building
//!
//! For targets with 64-bit pointers; tested on Linux on x86-64. The build links `libnerupazhil.a`, which has to be the
//! archive for the target, from the folder that the variable `NERUPAZHIL_STATICLIB` names. Where it is not set, there is
//! a folder of the repository for Linux and Android:
//!
//! | Processor | Folder | The command that writes the archive |
//! |---|---|---|
//! | x86-64 | `target/staticlib` | `tools/staticlib` |
//! | AArch64 | `target/archives/aarch64-linux` | `./archives` |

#![deny(missing_docs)]
#![deny(unsafe_code)]
#![warn(missing_debug_implementations, unreachable_pub, rust_2018_idioms)]

pub mod calls;
pub mod raw;

mod index;
mod numbers;
mod objects;
mod read;
mod records;
mod refusal;
mod walk;
mod write;

pub use index::Index;
pub use objects::{Kind, ObjectName, WrongLength};
pub use raw::{Fields, Stage, DIGEST, DIGEST_SHA256, WORKSPACE};
pub use read::{check, entry, tree_node, undo_record};
pub use records::{mode, Checksum, Entry, Summary, Tree, TreeNode, UndoRecord, Version};
pub use refusal::{Reason, Refusal};
pub use walk::{walk, Walk};
pub use write::{put, remove, rewrite};

/// The most bytes that a file may have.
pub const MAX_FILE: usize = 16_777_216;

/// The index without entries, of version 2 and with SHA-1 names: a new list begins with it, in any [`Version`].
///
/// ```
/// use nerupazhil::{sha1, EMPTY};
///
/// assert_eq!(EMPTY[12..], sha1(&EMPTY[..12]));
/// ```
pub const EMPTY: [u8; 32] = *b"DIRC\0\0\0\x02\0\0\0\0\
    \x39\xd8\x90\x13\x9e\xe5\x35\x6c\x7e\xf5\x72\x21\x6c\xeb\xcd\x27\xaa\x41\xf9\xdf";

/// The index without entries, of version 2 and with SHA-256 names: a new list begins with it, in any [`Version`].
///
/// ```
/// use nerupazhil::{sha256, EMPTY_SHA256};
///
/// assert_eq!(EMPTY_SHA256[12..], sha256(&EMPTY_SHA256[..12]));
/// ```
pub const EMPTY_SHA256: [u8; 44] = *b"DIRC\0\0\0\x02\0\0\0\0\
    \xc9\xba\xea\xdf\x90\x51\x12\xbf\x6c\x17\xae\xfb\xd7\xd0\x22\x67\
    \xaf\xd7\x0d\xed\x61\x3c\x30\xca\xfe\xd2\xd4\x0c\xb5\x06\xe1\xed";

/// The SHA-1 digest of bytes. [`Kind::hash`] answers it as an object name.
///
/// ```
/// use nerupazhil::sha1;
///
/// assert_eq!(sha1(b"abc")[..4], [0xa9, 0x99, 0x3e, 0x36]);
/// ```
pub fn sha1(bytes: &[u8]) -> [u8; DIGEST] {
    calls::sha1(bytes)
}

/// The SHA-256 digest of bytes. [`Kind::hash`] answers it as an object name.
///
/// ```
/// use nerupazhil::sha256;
///
/// assert_eq!(sha256(b"abc")[..4], [0xba, 0x78, 0x16, 0xbf]);
/// ```
pub fn sha256(bytes: &[u8]) -> [u8; DIGEST_SHA256] {
    calls::sha256(bytes)
}
