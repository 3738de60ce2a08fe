//! What the calls show and take.

use crate::raw::{CheckReply, Fields, Stage, VERSION_LOWEST};
use crate::ObjectName;

/// The modes that an entry may have.
pub mod mode {
    /// A regular file, 100644.
    pub const REGULAR: u32 = 0o100644;
    /// A regular file that can be executed, 100755.
    pub const EXECUTABLE: u32 = 0o100755;
    /// A symbolic link, 120000.
    pub const SYMLINK: u32 = 0o120000;
    /// A commit of another repository, 160000.
    pub const GITLINK: u32 = 0o160000;
}

/// The version in which a file is to be written, whatever the version of the given one.
///
/// The default is version 4, and was [`Lowest`](Self::Lowest) before. An older reader and a [`walk`](crate::walk()) need
/// that one; the [crate's page](crate#versions) has an example of both.
#[derive(Clone, Copy, Debug, Default, PartialEq, Eq, Hash)]
pub enum Version {
    /// 2 where no entry of the new file needs the extended word (for skip-worktree or intent-to-add), else 3.
    Lowest,
    /// 2, refused where an entry of the new file needs the extended word.
    V2,
    /// 3.
    V3,
    /// 4, the default: a name leaves out what it has in common with the one before it.
    #[default]
    V4,
}

impl Version {
    /// The number by which the library is asked.
    pub(crate) const fn asked(self) -> u32 {
        match self {
            Self::Lowest => VERSION_LOWEST,
            Self::V2 => 2,
            Self::V3 => 3,
            Self::V4 => 4,
        }
    }
}

/// What check answers of an accepted file.
#[derive(Clone, Copy, Debug, PartialEq, Eq, Hash)]
pub struct Summary {
    /// The file's version: 2, 3 or 4.
    pub version: u32,
    /// How many entries it has.
    pub entries: u32,
    /// The byte where its entries end.
    pub end: usize,
    /// How many nodes its cache tree has, where it has one.
    pub nodes: Option<u32>,
    /// How many resolve-undo records it has, where it has their extension.
    pub records: Option<u32>,
    /// Whether its checksum is there. No other call tells.
    pub checksum: Checksum,
}

impl Summary {
    /// The version that Git would write after an edit: 4 stays 4, else the lowest. A file of version 2 or 3 may be there
    /// for an older reader, so an edit is best written in this one; a new list is best written by [`Version::default`].
    ///
    /// ```
    /// use nerupazhil::{check, Kind, Version, EMPTY, WORKSPACE};
    ///
    /// let summary = check(Kind::Sha1, &EMPTY, &mut [0; WORKSPACE])?;
    /// assert_eq!(summary.version_kept(), Version::Lowest);
    /// # Ok::<(), nerupazhil::Refusal>(())
    /// ```
    pub const fn version_kept(&self) -> Version {
        match self.version {
            4 => Version::V4,
            _ => Version::Lowest,
        }
    }

    pub(crate) fn of(reply: &CheckReply) -> Self {
        Self {
            version: reply.version,
            entries: reply.entries,
            end: reply.end,
            nodes: reply.has_tree.then_some(reply.nodes),
            records: reply.has_undo.then_some(reply.records),
            checksum: match reply.checksum_left_out {
                true => Checksum::LeftOut,
                false => Checksum::Matches,
            },
        }
    }
}

/// What is in the place of an accepted file's checksum. All else is [`Reason::Checksum`](crate::Reason::Checksum).
///
/// Nothing guards a file whose checksum was left out: a change in its middle can't be told by it, and a file that lost
/// its tail to zeros may look like one. So show the list, say that it is unguarded, and rewrite it: a file that is
/// written here always has a real checksum.
///
/// ```
/// # let file = include_bytes!(concat!(env!("CARGO_MANIFEST_DIR"), "/../tests/vectors/real/v2-committed.index"));
/// # let mut file = file.to_vec();
/// use nerupazhil::{Checksum, Index, Reason};
///
/// let place = file.len() - 20;
/// file[place..].fill(0);
/// let index = Index::read(&file)?;
/// assert_eq!(index.summary().checksum, Checksum::LeftOut);
/// assert_eq!(index.entries()?.count(), 20);
///
/// let new = index.rewritten(index.summary().version_kept())?;
/// assert_eq!(Index::read(&new)?.summary().checksum, Checksum::Matches);
///
/// // Zeros but for one byte are a wrong checksum.
/// file[place] = 1;
/// assert_eq!(Index::read(&file).unwrap_err().reason(), Reason::Checksum);
/// # Ok::<(), nerupazhil::Refusal>(())
/// ```
#[derive(Clone, Copy, Debug, PartialEq, Eq, Hash)]
pub enum Checksum {
    /// The hash of all bytes before it.
    Matches,
    /// Zeros, as Git's index.skipHash writes them: damage can't be told by it.
    LeftOut,
}

/// An entry. Its name is a part of the buffer in which it was read.
#[derive(Clone, Copy, Debug, PartialEq, Eq)]
pub struct Entry<'a> {
    /// The path of the file, relative to the worktree, with `/` between components.
    pub name: &'a [u8],
    /// All but the name.
    pub fields: Fields,
}

/// A node of the cache tree: what Git knows of the tree object of a directory.
#[derive(Clone, Copy, Debug, PartialEq, Eq, Hash)]
pub struct TreeNode<'a> {
    /// The last component of the directory's path, empty for the root. It is a part of the file.
    pub name: &'a [u8],
    /// The level, 1 for the root. Nodes are listed top-down and depth first.
    pub level: u32,
    /// How many subtrees the node has.
    pub subtrees: u32,
    /// The tree object, or `None` where the node is invalid: an entry below it has changed since.
    pub tree: Option<Tree>,
}

/// The tree object of a valid node.
#[derive(Clone, Copy, Debug, PartialEq, Eq, Hash)]
pub struct Tree {
    /// How many entries the directory has, with those of its subdirectories.
    pub entries: u32,
    /// The name of the tree object.
    pub object: ObjectName,
}

/// What a path was before its conflict was resolved.
#[derive(Clone, Copy, Debug, PartialEq, Eq)]
pub struct UndoRecord<'a> {
    /// The path. It is a part of the file.
    pub path: &'a [u8],
    /// Stages 1, 2 and 3, as far as they were there.
    pub stages: [Option<Stage>; 3],
}
