//! The calls as C makes them. Each array is lent by itself, between guards, and holds bytes that a call has to replace.

use crate::comparison::Reply;
use crate::ffi::Hash;
use crate::inputs::requests::Call;
use crate::kind::{Kind, Object, OBJECT};
use crate::lent::{Edge, Lent, Place};
use crate::replies::{Fields, Name};
use nerupazhil::raw;

/// What arrays hold before a call. The two have no byte in common: one that was not written is told in one of two turns.
const FILLS: [u8; 2] = [0xa5, 0x5a];
/// Numbers that mean yes in the fields that are given.
const YES: [u32; 5] = [1, u32::MAX, 2, 0x100, 0x8000_0000];
/// After so many turns every edge was lent with every fill.
pub const TURNS: usize = 4;

/// What the arrays of a call hold: the numbers of the reply, the fields of an entry, and object names or a digest. Those
/// that a call does not take are empty.
#[derive(Clone, Debug, Default, PartialEq)]
pub struct Arrays {
    pub reply: Vec<u64>,
    pub fields: Vec<u32>,
    pub names: Vec<Vec<u8>>,
}

impl Arrays {
    /// A reply as arrays, each part where the header has it.
    pub fn of(reply: &Reply) -> Self {
        match reply {
            Reply::Check(r) => Self::numbers(&[
                r.refusal.into(),
                r.place as u64,
                r.version.into(),
                r.entries.into(),
                r.end as u64,
                r.has_tree.into(),
                r.nodes.into(),
                r.has_undo.into(),
                r.records.into(),
                r.checksum_left_out.into(),
            ])
            .zeros_to(16),
            Reply::Entry(r) => Self::shown(r.refusal, r.place, r.name, &[]).with_fields(&r.fields),
            Reply::Node(r) => {
                let rest = [r.level, r.valid.into(), r.count, r.subtrees];
                Self::shown(r.refusal, r.place, r.name, &rest.map(u64::from)).with_name(r.object)
            }
            Reply::Undo(r) => {
                let modes = r.stages.map(|stage| stage.mode.into());
                let shown = Self::shown(r.refusal, r.place, r.path, &modes);
                let objects = r.stages.map(|stage| stage.object);
                objects.into_iter().fold(shown, Self::with_name)
            }
            Reply::Write(r) => Self::numbers(&[r.refusal.into(), r.place as u64, r.length as u64]),
            Reply::Start(r) => {
                Self::numbers(&[r.refusal.into(), r.place as u64, r.at as u64, r.left.into()])
            }
            Reply::Step(r) => {
                let rest = [r.at as u64, r.left.into()];
                Self::shown(r.refusal, r.place, r.name, &rest).with_fields(&r.fields)
            }
            Reply::Digest(kind, digest) => Self {
                names: vec![digest[..kind.width()].to_vec()],
                ..Self::default()
            },
        }
    }

    /// The arrays of a call that takes a kind, where it is refused at place 0: all but the number is zero.
    pub fn refused(call: &Call, refusal: u32) -> Option<Self> {
        let (numbers, fields, names) = match call {
            Call::Check => (16, 0, 0),
            Call::Entry(_) => (5, 14, 1),
            Call::TreeNode(_) => (9, 0, 1),
            Call::UndoRecord(_) => (8, 0, 3),
            Call::Rewrite(_) | Call::Put(..) | Call::Remove(..) => (3, 0, 0),
            Call::WalkStart => (4, 0, 0),
            Call::WalkNext(..) => (7, 14, 1),
            Call::Hash(_) => return None,
        };
        let mut reply = vec![0; numbers];
        reply[0] = refusal.into();
        Some(Self {
            reply,
            fields: vec![0; fields],
            names: vec![vec![0; OBJECT]; names],
        })
    }

    fn numbers(reply: &[u64]) -> Self {
        Self {
            reply: reply.to_vec(),
            ..Self::default()
        }
    }

    fn zeros_to(mut self, length: usize) -> Self {
        self.reply.resize(length, 0);
        self
    }

    /// A reply that shows a name, with the numbers after it.
    fn shown(refusal: u32, place: usize, name: Name, rest: &[u64]) -> Self {
        let start = [
            refusal.into(),
            place as u64,
            name.buffer.into(),
            name.offset as u64,
            name.length as u64,
        ];
        Self::numbers(&[&start, rest].concat())
    }

    fn with_fields(mut self, fields: &Fields) -> Self {
        self.fields = fields.numbers(1).to_vec();
        self.with_name(fields.object)
    }

    fn with_name(mut self, object: Object) -> Self {
        self.names.push(object.to_vec());
        self
    }
}

/// The arrays that calls are lent.
pub struct Boundary {
    reply: Lent,
    fields: Lent,
    names: [Lent; 3],
    given_fields: Lent,
    given_object: Lent,
    turn: usize,
}

impl Boundary {
    pub fn new(place: Place) -> Self {
        let lent = |what| Lent::new(what, place, 1024);
        Self {
            reply: lent("reply"),
            fields: lent("fields"),
            names: [
                lent("first object name"),
                lent("second object name"),
                lent("third object name"),
            ],
            given_fields: lent("given fields"),
            given_object: lent("given object name"),
            turn: 0,
        }
    }

    /// Makes a call, and answers what its arrays then hold. From turn to turn they touch another edge, and hold other
    /// bytes before; the numbers that mean yes in given fields are others too, and the bytes after an object name.
    pub fn call(
        &mut self,
        kind: u32,
        call: &Call,
        file: &[u8],
        name: &[u8],
        work: &mut [u8],
        out: &mut [u8],
    ) -> Result<Arrays, String> {
        self.take_back();
        self.make(kind, call, file, name, work, out)?;
        self.turn += 1;
        for lent in self.all() {
            lent.guards_stay()?;
        }
        Ok(self.arrays())
    }

    fn all(&mut self) -> impl Iterator<Item = &mut Lent> {
        let read = [&mut self.given_fields, &mut self.given_object];
        let written = [&mut self.reply, &mut self.fields];
        read.into_iter().chain(written).chain(&mut self.names)
    }

    /// Lends nothing.
    fn take_back(&mut self) {
        for lent in self.all() {
            lent.blank(0, Edge::Start);
        }
    }

    fn make(
        &mut self,
        kind: u32,
        call: &Call,
        file: &[u8],
        name: &[u8],
        work: &mut [u8],
        out: &mut [u8],
    ) -> Result<(), String> {
        let edge = [Edge::Start, Edge::End][self.turn % 2];
        let fill = FILLS[self.turn / 2 % 2];
        let yes = YES[self.turn % YES.len()];
        let (reply, fields) = (&mut self.reply, &mut self.fields);
        let [first, second, third] = &mut self.names;
        /// An array of the length that the function's declaration says.
        macro_rules! new {
            ($lent:ident) => {
                $lent.filled_array(fill, edge)
            };
        }
        /// A function with slices, each as its pointer and its length, then numbers and arrays.
        macro_rules! call {
            ($function:ident, $file:ident $(, $slice:ident)*; $($value:expr),*) => {
                // SAFETY: the pointers and lengths are those of slices, and each array is lent for this call, with the
                // length of its type. What is written overlaps nothing else.
                unsafe {
                    raw::$function(
                        kind,
                        $file.as_ptr(),
                        $file.len(),
                        $($slice.as_mut_ptr(), $slice.len(),)*
                        $($value),*
                    )
                }
            };
        }
        match call {
            Call::Check => call!(nerupazhil_check, file, work; new!(reply)),
            Call::Entry(k) => {
                call!(nerupazhil_entry, file, work; *k, new!(reply), new!(fields), new!(first))
            }
            Call::TreeNode(k) => {
                call!(nerupazhil_tree_node, file, work; *k, new!(reply), new!(first))
            }
            Call::UndoRecord(k) => call!(
                nerupazhil_undo_record, file, work;
                *k, new!(reply), new!(first), new!(second), new!(third)
            ),
            Call::Rewrite(asked) => {
                call!(nerupazhil_rewrite, file, work, out; *asked, new!(reply))
            }
            Call::Put(asked, _, given) => {
                let numbers = given.numbers(yes).map(u32::to_ne_bytes).concat();
                let width = Kind::of(kind).map_or(OBJECT, Kind::width);
                let mut object = given.object[..width].to_vec();
                object.resize(OBJECT, fill);
                call!(
                    nerupazhil_put, file, work, out;
                    *asked, name.as_ptr(), name.len(),
                    self.given_fields.copied_array(&numbers, edge),
                    self.given_object.copied_array(&object, edge),
                    new!(reply)
                );
                if self.given_fields.bytes() != numbers || self.given_object.bytes() != object {
                    return Err("put wrote to what it was given".to_string());
                }
            }
            Call::Remove(asked, _, stage) => call!(
                nerupazhil_remove, file, work, out;
                *asked, name.as_ptr(), name.len(), *stage, new!(reply)
            ),
            Call::WalkStart => call!(nerupazhil_walk_start, file, work; new!(reply)),
            Call::WalkNext(at, left) => call!(
                nerupazhil_walk_next, file;
                *at, *left, new!(reply), new!(fields), new!(first)
            ),
            Call::Hash(kind) => {
                let hash = Hash::of(*kind).ok_or("there is no such hash function")?;
                let digest = first.filled(kind.width(), fill, edge);
                // SAFETY: as above; the digest has the kind's width.
                unsafe { (hash.call)(file.as_ptr(), file.len(), digest) }
            }
        }
        Ok(())
    }

    fn arrays(&self) -> Arrays {
        let reply = self.reply.bytes().chunks_exact(8);
        let fields = self.fields.bytes().chunks_exact(4);
        let names = self.names.iter().map(|lent| lent.bytes().to_vec());
        Arrays {
            reply: reply
                .map(|bytes| u64::from_ne_bytes(array(bytes)))
                .collect(),
            fields: fields
                .map(|bytes| u32::from_ne_bytes(array(bytes)))
                .collect(),
            names: names.filter(|name| !name.is_empty()).collect(),
        }
    }
}

fn array<const N: usize>(bytes: &[u8]) -> [u8; N] {
    bytes.try_into().expect("the bytes of a number")
}
