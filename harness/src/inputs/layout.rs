//! Records laid out as the bytes of a file, with the place of every field, so that damage can be aimed.

use super::records::{Entry, Extension, Node, Records, Undo, MODE};
use crate::index_file::{common, offset_code, padding};
use crate::kind::{Kind, Object};
use std::ops::Range;

/// Which piece of an entry has its flags: ten numbers and an object name are before.
const FLAGS: usize = 11;

#[derive(Clone, Copy, Debug, PartialEq, Eq)]
pub enum Field {
    Signature,
    Version,
    EntryCount,
    Entry,
    Number,
    Mode,
    Object,
    Flags,
    Word,
    Offset,
    Name,
    Padding,
    Extension,
    ExtensionName,
    ExtensionSize,
    Passed,
    Node,
    NodeName,
    NodeCount,
    Subtrees,
    NodeObject,
    Undo,
    UndoPath,
    UndoMode,
    UndoObject,
    Separator,
}

/// A field, or an entry, extension, node or resolve-undo record with all its fields: a row of pieces.
#[derive(Clone, Copy)]
pub struct Part {
    pub field: Field,
    pub first: usize,
    pub end: usize,
}

/// A file without its checksum, in pieces. A piece is a range of the store, which only grows.
pub struct Layout {
    kind: Kind,
    pub version: u32,
    pub entries: u32,
    pub parts: Vec<Part>,
    pieces: Vec<Range<usize>>,
    store: Vec<u8>,
}

// ---- laying out

impl Layout {
    pub fn new(records: &Records) -> Self {
        let mut layout = Self {
            kind: records.kind,
            version: records.version,
            entries: records.entries.len() as u32,
            parts: Vec::new(),
            pieces: Vec::new(),
            store: Vec::new(),
        };
        layout.add(Field::Signature, b"DIRC");
        layout.add(Field::Version, &records.version.to_be_bytes());
        layout.add(Field::EntryCount, &layout.entries.to_be_bytes());
        let mut previous: &[u8] = b"";
        for entry in &records.entries {
            layout.entry(entry, previous);
            previous = &entry.name;
        }
        for extension in &records.extensions {
            layout.extension(extension);
        }
        layout.repair_sizes();
        layout
    }

    fn keep(&mut self, bytes: &[u8]) -> Range<usize> {
        let start = self.store.len();
        self.store.extend(bytes);
        start..self.store.len()
    }

    fn add(&mut self, field: Field, bytes: &[u8]) {
        let piece = self.keep(bytes);
        let first = self.pieces.len();
        self.pieces.push(piece);
        let end = first + 1;
        self.parts.push(Part { field, first, end });
    }

    /// Adds as much of an object name as the kind has.
    fn object(&mut self, field: Field, object: &Object) {
        self.add(field, &object[..self.kind.width()]);
    }

    /// Adds what the function adds, and a part that covers it.
    fn cover(&mut self, field: Field, fill: impl FnOnce(&mut Self)) {
        let first = self.pieces.len();
        fill(self);
        let end = self.pieces.len();
        self.parts.push(Part { field, first, end });
    }

    fn entry(&mut self, entry: &Entry, previous: &[u8]) {
        self.cover(Field::Entry, |layout| {
            let first = layout.pieces.len();
            for (k, number) in entry.numbers.iter().enumerate() {
                let field = match k {
                    MODE => Field::Mode,
                    _ => Field::Number,
                };
                layout.add(field, &number.to_be_bytes());
            }
            layout.object(Field::Object, &entry.object);
            layout.add(Field::Flags, &flags(entry).to_be_bytes());
            if let Some(word) = entry.word {
                layout.add(Field::Word, &word.to_be_bytes());
            }
            if layout.version == 4 {
                return layout.compressed_name(entry, previous);
            }
            layout.add(Field::Name, &entry.name);
            let length = layout.length(first..layout.pieces.len());
            layout.add(Field::Padding, &[0; 8][..padding(length)]);
        });
    }

    fn compressed_name(&mut self, entry: &Entry, previous: &[u8]) {
        let kept = common(previous, &entry.name).saturating_sub(entry.more);
        self.add(Field::Offset, &offset_code(previous.len() - kept));
        self.add(Field::Name, &entry.name[kept..]);
        self.add(Field::Padding, &[0]);
    }

    fn extension(&mut self, extension: &Extension) {
        let signature = match extension {
            Extension::Tree(_) => b"TREE",
            Extension::Undo(_) => b"REUC",
            Extension::Passed(signature, _) => signature,
        };
        self.cover(Field::Extension, |layout| {
            layout.add(Field::ExtensionName, signature);
            layout.add(Field::ExtensionSize, &[0; 4]);
            match extension {
                Extension::Tree(nodes) => nodes.iter().for_each(|node| layout.node(node)),
                Extension::Undo(records) => records.iter().for_each(|undo| layout.undo(undo)),
                Extension::Passed(_, data) => layout.add(Field::Passed, data),
            }
        });
    }

    fn node(&mut self, node: &Node) {
        self.cover(Field::Node, |layout| {
            layout.add(Field::NodeName, &node.name);
            layout.add(Field::Separator, &[0]);
            layout.add(Field::NodeCount, node.count.to_string().as_bytes());
            layout.add(Field::Separator, b" ");
            layout.add(Field::Subtrees, node.subtrees.to_string().as_bytes());
            layout.add(Field::Separator, b"\n");
            if node.count >= 0 {
                layout.object(Field::NodeObject, &node.object);
            }
        });
    }

    fn undo(&mut self, undo: &Undo) {
        self.cover(Field::Undo, |layout| {
            layout.add(Field::UndoPath, &undo.path);
            layout.add(Field::Separator, &[0]);
            for mode in undo.modes {
                layout.add(Field::UndoMode, format!("{mode:o}").as_bytes());
                layout.add(Field::Separator, &[0]);
            }
            for (mode, object) in undo.modes.iter().zip(&undo.objects) {
                if *mode > 0 {
                    layout.object(Field::UndoObject, object);
                }
            }
        });
    }
}

/// The flags of an entry, from the top: assume-valid, extended, the stage, the length of the name.
fn flags(entry: &Entry) -> u16 {
    let length = entry.name.len().min(4095) as u16;
    let extended = u16::from(entry.word.is_some());
    u16::from(entry.assume_valid) << 15 | extended << 14 | entry.stage << 12 | length
}

// ---- reading and changing

impl Layout {
    fn length(&self, pieces: Range<usize>) -> usize {
        self.pieces[pieces].iter().map(|piece| piece.len()).sum()
    }

    fn content(&self, pieces: Range<usize>) -> Vec<u8> {
        let pieces = self.pieces[pieces].iter().cloned();
        pieces
            .flat_map(|piece| &self.store[piece])
            .copied()
            .collect()
    }

    /// The file's bytes but for the checksum.
    pub fn body(&self) -> Vec<u8> {
        self.content(0..self.pieces.len())
    }

    pub fn part(&self, part: Part) -> Vec<u8> {
        self.content(part.first..part.end)
    }

    /// The first byte of a part.
    pub fn place(&self, part: Part) -> usize {
        self.length(0..part.first)
    }

    /// Puts other bytes in place of a part.
    pub fn replace(&mut self, part: Part, bytes: &[u8]) {
        self.pieces[part.first..part.end].fill(0..0);
        self.pieces[part.first] = self.keep(bytes);
    }

    pub fn parts_of(&self, field: Field) -> Vec<Part> {
        let parts = self.parts.iter().copied();
        parts.filter(|part| part.field == field).collect()
    }

    /// Makes the size of each extension that of its data.
    pub fn repair_sizes(&mut self) {
        for part in self.parts_of(Field::Extension) {
            let size = self.length(part.first + 2..part.end) as u32;
            self.pieces[part.first + 1] = self.keep(&size.to_be_bytes());
        }
    }

    /// Makes the entry count that of the header.
    pub fn repair_count(&mut self) {
        self.pieces[2] = self.keep(&self.entries.to_be_bytes());
    }

    /// Makes each length field and each padding of versions 2 and 3 fit its name, where an entry has its own pieces.
    pub fn repair_entries(&mut self) {
        if self.version == 4 {
            return;
        }
        for part in self.parts_of(Field::Entry) {
            let (flags, name, last) = (part.first + FLAGS, part.end - 2, part.end - 1);
            let (high, low) = match self.store[self.pieces[flags].clone()] {
                [high, low] => (high, low),
                _ => continue,
            };
            let length = self.pieces[name].len().min(4095) as u16;
            let new = u16::from_be_bytes([high, low]) & 0xf000 | length;
            self.pieces[flags] = self.keep(&new.to_be_bytes());
            let zeros = padding(self.length(part.first..last));
            self.pieces[last] = self.keep(&[0; 8][..zeros]);
        }
    }
}

/// The body with a checksum behind it, a right one or one with a wrong bit.
pub fn signed(kind: Kind, body: Vec<u8>, right: bool) -> Vec<u8> {
    let length = body.len();
    let mut file = kind.signed(body);
    if !right {
        file[length + length % kind.width()] ^= 1 << (length % 8);
    }
    file
}
