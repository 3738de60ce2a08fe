//! Makes a call of the proved library, as C makes it, and of the independent one. The arrays of the replies, workspaces
//! and outputs must be equal, byte for byte, and what was not lent must stay.

use crate::boundary::{Arrays, Boundary};
use crate::index_file::LARGEST;
use crate::inputs::requests::Call;
use crate::kind::{Kind, Object};
use crate::lent::{Edge, Lent, Place};
use crate::opponent;
use crate::replies::{CheckReply, EntryReply, Name, NodeReply, StartReply, StepReply};
use crate::replies::{UndoReply, WriteReply, WORKSPACE};

/// The refusal after which a workspace is as it was.
const WORKSPACE_SMALL: u32 = 19;
/// The refusal of a kind.
const UNKNOWN_KIND: u32 = 29;

#[derive(Clone, Debug, PartialEq)]
pub enum Reply {
    Check(CheckReply),
    Entry(EntryReply),
    Node(NodeReply),
    Undo(UndoReply),
    Write(WriteReply),
    Start(StartReply),
    Step(StepReply),
    Digest(Kind, Object),
}

impl Reply {
    pub fn refusal(&self) -> u32 {
        match self {
            Self::Check(reply) => reply.refusal,
            Self::Entry(reply) => reply.refusal,
            Self::Node(reply) => reply.refusal,
            Self::Undo(reply) => reply.refusal,
            Self::Write(reply) => reply.refusal,
            Self::Start(reply) => reply.refusal,
            Self::Step(reply) => reply.refusal,
            Self::Digest(..) => 0,
        }
    }

    /// The name that it shows, an empty one where it shows none.
    pub fn name(&self) -> Name {
        match self {
            Self::Entry(reply) => reply.name,
            Self::Node(reply) => reply.name,
            Self::Undo(reply) => reply.path,
            Self::Step(reply) => reply.name,
            _ => Name::default(),
        }
    }
}

/// How a library answers a call with the number of a kind, a file, a name, a workspace and an output.
pub type Answering = fn(u32, &Call, &[u8], &[u8], &mut [u8], &mut [u8]) -> Reply;

/// A function that answers a call by the functions of a module; digests are those of plain Rust.
#[macro_export]
macro_rules! answers {
    ($function:ident, $module:ident) => {
        pub fn $function(
            kind: u32,
            call: &$crate::inputs::requests::Call,
            file: &[u8],
            name: &[u8],
            work: &mut [u8],
            out: &mut [u8],
        ) -> $crate::comparison::Reply {
            use $crate::comparison::Reply;
            use $crate::inputs::requests::Call;
            match *call {
                Call::Check => Reply::Check($module::check(kind, file, work)),
                Call::Entry(k) => Reply::Entry($module::entry(kind, file, work, k)),
                Call::TreeNode(k) => Reply::Node($module::tree_node(kind, file, work, k)),
                Call::UndoRecord(k) => Reply::Undo($module::undo_record(kind, file, work, k)),
                Call::Rewrite(asked) => {
                    Reply::Write($module::rewrite(kind, file, work, out, asked))
                }
                Call::Put(asked, _, fields) => {
                    Reply::Write($module::put(kind, file, work, out, asked, name, fields))
                }
                Call::Remove(asked, _, stage) => {
                    Reply::Write($module::remove(kind, file, work, out, asked, name, stage))
                }
                Call::WalkStart => Reply::Start($module::walk_start(kind, file, work)),
                Call::WalkNext(at, left) => Reply::Step($module::walk_next(kind, file, at, left)),
                Call::Hash(kind) => Reply::Digest(kind, kind.hash(file)),
            }
        }
    };
}

answers!(independent, opponent);

/// What one of the two may write to.
struct Side {
    work: Lent,
    out: Lent,
}

impl Side {
    fn new(place: Place) -> Self {
        Self {
            work: Lent::new("workspace", place, 20_000),
            out: Lent::new("output", place, LARGEST + 100),
        }
    }

    fn blank(&mut self, work: usize, room: usize, edge: Edge) {
        self.work.blank(work, edge);
        self.out.blank(room, edge);
    }

    /// Sees that a call left all as it shall that writes, or is refused: of the output only the first bytes are written;
    /// the workspace is untouched after 19, and by a call that takes none, else its first 8,192 bytes are zero and the
    /// others untouched.
    fn stays(&self, call: &Call, refusal: u32, written: usize) -> Result<(), String> {
        self.out.stays_after(written)?;
        if refusal == WORKSPACE_SMALL || !call.works() {
            return self.work.stays_after(0);
        }
        self.work.stays_after(WORKSPACE)?;
        match self.work.bytes()[..WORKSPACE] == [0; WORKSPACE] {
            true => Ok(()),
            false => Err("the workspace is not zero".to_string()),
        }
    }
}

pub struct Comparison {
    file: Lent,
    name: Lent,
    boundary: Boundary,
    ours: Side,
    theirs: Side,
    edge: Edge,
}

impl Comparison {
    pub fn new(place: Place) -> Self {
        Self {
            file: Lent::new("file", place, LARGEST + 100),
            name: Lent::new("name", place, LARGEST),
            boundary: Boundary::new(place),
            ours: Side::new(place),
            theirs: Side::new(place),
            edge: Edge::End,
        }
    }

    /// Lends the file of the calls that follow.
    pub fn lend_file(&mut self, file: &[u8], edge: Edge) {
        self.file.read_only(file, edge);
    }

    /// Lends the name of the calls that follow.
    pub fn lend_name(&mut self, name: &[u8], edge: Edge) {
        self.name.read_only(name, edge);
    }

    /// Sees that file and name were not written.
    pub fn inputs_stay(&self, file: &[u8], name: &[u8]) -> Result<(), String> {
        for (lent, content) in [(&self.file, file), (&self.name, name)] {
            lent.guards_stay()?;
            if lent.bytes() != content {
                return Err(format!("the {} was written", lent.what()));
            }
        }
        Ok(())
    }

    /// The output of the last call, which wrote the given number of bytes: that of both, where both were called.
    pub fn written(&self, length: usize) -> &[u8] {
        &self.theirs.out.bytes()[..length]
    }

    /// A name that the last call showed, likewise.
    pub fn shown(&self, name: Name) -> &[u8] {
        let buffer = match name.buffer {
            2 => self.theirs.work.bytes(),
            _ => self.file.bytes(),
        };
        &buffer[name.offset..name.offset + name.length]
    }

    /// Makes a call to both, with workspaces and outputs of these lengths, and compares all.
    pub fn both(
        &mut self,
        kind: u32,
        call: &Call,
        work: usize,
        room: usize,
    ) -> Result<Reply, String> {
        let about = |why| format!("kind {kind}, {call}, workspace {work}, output {room}: {why}");
        self.blank(work, room);
        let ours = self.proved(kind, call).map_err(about)?;
        let reply = self.theirs_of(kind, call);
        let theirs = Arrays::of(&reply);
        if ours != theirs {
            return Err(about(format!("{ours:?}, the other {theirs:?}")));
        }
        self.same().map_err(about)?;
        let written = match &reply {
            Reply::Write(reply) => reply.length,
            _ => 0,
        };
        if call.writes() || reply.refusal() > 0 {
            let stays = self.ours.stays(call, reply.refusal(), written);
            stays.map_err(about)?;
        }
        Ok(reply)
    }

    /// Makes a call of the proved library with a kind that it does not take, and sees that it is refused with 29, or with
    /// 19 where it takes a workspace and this is too short. Answers the refusal, none where the call takes no kind.
    pub fn unknown_kind(
        &mut self,
        kind: u32,
        call: &Call,
        work: usize,
        room: usize,
    ) -> Result<Option<u32>, String> {
        let about = |why: String| format!("{call}, kind {kind}, workspace {work}: {why}");
        let refusal = match call.works() && work < WORKSPACE {
            true => WORKSPACE_SMALL,
            false => UNKNOWN_KIND,
        };
        let expected = match Arrays::refused(call, refusal) {
            Some(arrays) => arrays,
            None => return Ok(None),
        };
        self.blank(work, room);
        let ours = self.proved(kind, call).map_err(about)?;
        if ours != expected {
            return Err(about(format!("{ours:?}, not {expected:?}")));
        }
        self.ours.stays(call, refusal, 0).map_err(about)?;
        Ok(Some(refusal))
    }

    /// What the independent library answers with what it is lent.
    fn theirs_of(&mut self, kind: u32, call: &Call) -> Reply {
        let (file, name) = (self.file.bytes(), self.name.bytes());
        let Side { work, out } = &mut self.theirs;
        independent(kind, call, file, name, work.bytes_mut(), out.bytes_mut())
    }

    /// Lends workspaces and outputs of these lengths, at the other edge than before.
    fn blank(&mut self, work: usize, room: usize) {
        self.edge = match self.edge {
            Edge::Start => Edge::End,
            Edge::End => Edge::Start,
        };
        self.ours.blank(work, room, self.edge);
        self.theirs.blank(work, room, self.edge);
    }

    /// What the proved library writes to the arrays of a call.
    fn proved(&mut self, kind: u32, call: &Call) -> Result<Arrays, String> {
        let (file, name) = (self.file.bytes(), self.name.bytes());
        let Side { work, out } = &mut self.ours;
        self.boundary
            .call(kind, call, file, name, work.bytes_mut(), out.bytes_mut())
    }

    /// Sees that both hold the same bytes after a call, and that nothing around them was written.
    fn same(&self) -> Result<(), String> {
        for (ours, theirs) in [
            (&self.ours.work, &self.theirs.work),
            (&self.ours.out, &self.theirs.out),
        ] {
            ours.guards_stay()?;
            theirs.guards_stay()?;
            same(ours, theirs)?;
        }
        Ok(())
    }
}

fn same(ours: &Lent, theirs: &Lent) -> Result<(), String> {
    let (what, ours, theirs) = (ours.what(), ours.bytes(), theirs.bytes());
    if ours == theirs {
        return Ok(());
    }
    let mut pairs = ours.iter().zip(theirs);
    match pairs.position(|(ours, theirs)| ours != theirs) {
        Some(at) => Err(format!(
            "byte {at} of the {what} is {}, the other's {}",
            ours[at], theirs[at]
        )),
        None => Err(format!("the {what} differs in length")),
    }
}
