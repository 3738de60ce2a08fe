//! The calls that write a file to an output.

use crate::calls;
use crate::raw::{Fields, WriteReply};
use crate::{Kind, Refusal, Version};

/// Writes the records of a file in a version, and answers the part of the output that was written.
///
/// The file is checked first. A refusal leaves the output as it was. Extensions other than TREE and REUC are dropped. A
/// checksum is written, also where the file's was left out. [`Version::default`] writes version 4. For an older reader,
/// and for a [`walk`](crate::walk()), ask for the lowest:
///
/// ```
/// # let file = include_bytes!(concat!(env!("CARGO_MANIFEST_DIR"), "/../tests/vectors/real/v4-committed.index"));
/// use nerupazhil::{check, rewrite, Kind, Version, WORKSPACE};
///
/// let (mut work, mut out) = ([0; WORKSPACE], [0; 4096]);
/// let written = rewrite(Kind::Sha1, file, &mut work, &mut out, Version::Lowest)?;
/// assert_eq!(check(Kind::Sha1, written, &mut work)?.version, 2);
/// # Ok::<(), nerupazhil::Refusal>(())
/// ```
pub fn rewrite<'a>(
    kind: Kind,
    file: &[u8],
    work: &mut [u8],
    out: &'a mut [u8],
    version: Version,
) -> Result<&'a mut [u8], Refusal> {
    let reply = calls::rewrite(kind.number(), file, work, out, version.asked());
    written(out, reply)
}

/// The same as [`rewrite`] with one entry: in place of the one of its name and stage, or added.
///
/// The root of the cache tree and each node on the way to the entry's directory become invalid. That the name is not
/// also a directory of other entries is for the caller to see to. An object name of another kind than the file's is
/// refused with 29, before anything of the file. All other refusals of the request are at place 0, after those of the
/// file: 7, 8 or 9 for the entry's mode, stage or name, then 11 as below, then 21, 2 or 20.
///
/// ```
/// use nerupazhil::{entry, mode, put, Fields, Kind, Version, EMPTY, WORKSPACE};
///
/// let (mut work, mut out) = ([0; WORKSPACE], [0; 256]);
/// let fields = Fields { mode: mode::REGULAR, object: [0x11; 20].into(), ..Fields::default() };
/// let file = put(Kind::Sha1, &EMPTY, &mut work, &mut out, Version::default(), b"saw/cut.txt", &fields)?;
/// assert_eq!(entry(Kind::Sha1, file, &mut work, 0)?.name, b"saw/cut.txt");
/// # Ok::<(), nerupazhil::Refusal>(())
/// ```
///
/// A path is merged, at stage 0, or in conflict, at stages 1 to 3. An entry that would make it both is refused with 11,
/// and the output stays as it was. [`Index::with`](crate::Index::with) shows how a conflict is settled.
///
/// ```
/// # let file = include_bytes!(concat!(env!("CARGO_MANIFEST_DIR"), "/../tests/vectors/real/v2-conflict.index"));
/// use nerupazhil::{mode, put, Fields, Kind, Refusal, Version, WORKSPACE};
///
/// let (mut work, mut out) = ([0; WORKSPACE], [0xee; 4096]);
/// let merged = Fields { mode: mode::REGULAR, object: [0x11; 20].into(), ..Fields::default() };
/// let refused = put(Kind::Sha1, file, &mut work, &mut out, Version::Lowest, b"plan", &merged);
/// assert_eq!(refused, Err(Refusal::new(11, 0)));
/// assert_eq!(out, [0xee; 4096]);
/// ```
pub fn put<'a>(
    kind: Kind,
    file: &[u8],
    work: &mut [u8],
    out: &'a mut [u8],
    version: Version,
    name: &[u8],
    fields: &Fields,
) -> Result<&'a mut [u8], Refusal> {
    let reply = calls::put(
        kind.number(),
        file,
        work,
        out,
        version.asked(),
        name,
        *fields,
    );
    written(out, reply)
}

/// The same as [`rewrite`] without the entry of a name and stage, which has to be there.
///
/// The cache tree changes as with [`put`].
///
/// ```
/// # let file = include_bytes!(concat!(env!("CARGO_MANIFEST_DIR"), "/../tests/vectors/real/v2-committed.index"));
/// use nerupazhil::{entry, remove, Kind, Reason, Version, WORKSPACE};
///
/// let (mut work, mut out) = ([0; WORKSPACE], [0; 4096]);
/// let file = remove(Kind::Sha1, file, &mut work, &mut out, Version::Lowest, b"a-b", 0)?;
/// assert_ne!(entry(Kind::Sha1, file, &mut work, 0)?.name, b"a-b");
///
/// let again = remove(Kind::Sha1, file, &mut work, &mut [], Version::Lowest, b"a-b", 0);
/// assert_eq!(again.unwrap_err().reason(), Reason::NotThere);
/// # Ok::<(), nerupazhil::Refusal>(())
/// ```
pub fn remove<'a>(
    kind: Kind,
    file: &[u8],
    work: &mut [u8],
    out: &'a mut [u8],
    version: Version,
    name: &[u8],
    stage: u32,
) -> Result<&'a mut [u8], Refusal> {
    let reply = calls::remove(kind.number(), file, work, out, version.asked(), name, stage);
    written(out, reply)
}

/// The part of the output that was written. The library is proved to stay within it; nothing here rests on that.
fn written(out: &mut [u8], reply: WriteReply) -> Result<&mut [u8], Refusal> {
    Refusal::unless_zero(reply.refusal, reply.place)?;
    Ok(out
        .get_mut(..reply.length)
        .expect("the library answered more bytes than the output has"))
}
