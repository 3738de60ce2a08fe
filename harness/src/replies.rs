//! The replies of both libraries as values, with room for the object names of any kind. `refusal` is 0 of a success; all
//! that does not apply is 0 or false: on a refusal, all but its number and its place.

use crate::kind::Object;

/// The least number of bytes of a workspace.
pub const WORKSPACE: usize = 8192;

/// The reply of check.
#[derive(Clone, Copy, Debug, Default, PartialEq, Eq)]
pub struct CheckReply {
    pub refusal: u32,
    pub version: u32,
    pub place: usize,
    /// The byte where the entries end.
    pub end: usize,
    pub entries: u32,
    pub nodes: u32,
    pub records: u32,
    pub has_tree: bool,
    pub has_undo: bool,
    /// Whether zeros are in place of the checksum.
    pub checksum_left_out: bool,
}

/// Where a name is: `buffer` is 1 for the file, 2 for the workspace, 0 for none.
#[derive(Clone, Copy, Debug, Default, PartialEq, Eq)]
pub struct Name {
    pub buffer: u32,
    pub offset: usize,
    pub length: usize,
}

/// The fields of an entry but its name.
#[derive(Clone, Copy, Debug, Default, PartialEq, Eq)]
pub struct Fields {
    pub ctime_seconds: u32,
    pub ctime_nanoseconds: u32,
    pub mtime_seconds: u32,
    pub mtime_nanoseconds: u32,
    pub dev: u32,
    pub ino: u32,
    pub mode: u32,
    pub uid: u32,
    pub gid: u32,
    pub size: u32,
    pub object: Object,
    pub assume_valid: bool,
    pub stage: u32,
    pub skip_worktree: bool,
    pub intent_to_add: bool,
}

impl Fields {
    /// The numbers that are lent for the fields, where a given one means yes.
    pub fn numbers(&self, yes: u32) -> [u32; 14] {
        [
            self.ctime_seconds,
            self.ctime_nanoseconds,
            self.mtime_seconds,
            self.mtime_nanoseconds,
            self.dev,
            self.ino,
            self.mode,
            self.uid,
            self.gid,
            self.size,
            u32::from(self.assume_valid) * yes,
            self.stage,
            u32::from(self.skip_worktree) * yes,
            u32::from(self.intent_to_add) * yes,
        ]
    }
}

/// The reply of entry.
#[derive(Clone, Copy, Debug, Default, PartialEq, Eq)]
pub struct EntryReply {
    pub refusal: u32,
    pub place: usize,
    pub name: Name,
    pub fields: Fields,
}

/// The reply of tree_node. An invalid node has count 0 and zeros for its object name.
#[derive(Clone, Copy, Debug, Default, PartialEq, Eq)]
pub struct NodeReply {
    pub refusal: u32,
    pub place: usize,
    pub name: Name,
    /// 1 of the root.
    pub level: u32,
    pub count: u32,
    pub subtrees: u32,
    pub valid: bool,
    pub object: Object,
}

/// A stage of a resolve-undo record: mode 0 and zeros where it is missing.
#[derive(Clone, Copy, Debug, Default, PartialEq, Eq)]
pub struct Stage {
    pub mode: u32,
    pub object: Object,
}

/// The reply of undo_record.
#[derive(Clone, Copy, Debug, Default, PartialEq, Eq)]
pub struct UndoReply {
    pub refusal: u32,
    pub place: usize,
    pub path: Name,
    /// Stages 1, 2 and 3.
    pub stages: [Stage; 3],
}

/// The reply of rewrite, put and remove.
#[derive(Clone, Copy, Debug, Default, PartialEq, Eq)]
pub struct WriteReply {
    pub refusal: u32,
    pub place: usize,
    /// How many bytes were written.
    pub length: usize,
}

/// The reply of walk_start: the place of the first entry and how many there are.
#[derive(Clone, Copy, Debug, Default, PartialEq, Eq)]
pub struct StartReply {
    pub refusal: u32,
    pub place: usize,
    pub at: usize,
    pub left: u32,
}

/// The reply of walk_next: an entry, the place after it and how many remain there.
#[derive(Clone, Copy, Debug, Default, PartialEq, Eq)]
pub struct StepReply {
    pub refusal: u32,
    pub place: usize,
    pub name: Name,
    pub fields: Fields,
    pub at: usize,
    pub left: u32,
}
