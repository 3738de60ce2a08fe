//! The entries of a file.

use std::cmp::Ordering;

use super::names::{nul, sound};
use super::refusal::{self, Refusal};
use crate::kind::Kind;
use crate::replies::Fields;

/// The bytes of the header: the first entry is after them.
pub const HEADER: usize = 12;

/// Regular file, executable file, symbolic link, gitlink.
pub const MODES: [u32; 4] = [0o100644, 0o100755, 0o120000, 0o160000];

/// The largest number in the length field: it means all lengths from there on.
pub const LONG: usize = 4095;

/// Flags.
pub const ASSUME_VALID: u16 = 1 << 15;
pub const EXTENDED: u16 = 1 << 14;
pub const STAGE_SHIFT: u32 = 12;

/// Bits of the extended word.
pub const SKIP_WORKTREE: u16 = 1 << 14;
pub const INTENT_TO_ADD: u16 = 1 << 13;

/// Where some of an entry's bytes are: the flags are after the object name. Flags and extended word have two bytes each.
const MODE_AT: usize = 24;
const OBJECT_AT: usize = 40;
const WORD: usize = 2;

/// All entries of a file.
pub struct Entries<'a> {
    kind: Kind,
    /// The file less its checksum.
    pub body: &'a [u8],
    pub version: u32,
    pub items: Vec<Item>,
    /// The byte where entries end.
    pub end: usize,
}

/// Where an entry is: its first byte, and what the file has of its name. In version 4 the name begins with the
/// `kept` first bytes of the name before.
pub struct Item {
    pub place: usize,
    pub start: usize,
    pub length: usize,
    pub kept: usize,
}

/// What an entry is compared with: the name before, which version 4 makes and the others show, and its stage.
#[derive(Default)]
struct Before<'a> {
    made: Vec<u8>,
    shown: &'a [u8],
    stage: u16,
}

impl<'a> Entries<'a> {
    /// Reads the entries that the header counts.
    pub fn read(kind: Kind, body: &'a [u8], version: u32, count: u32) -> Result<Self, Refusal> {
        let most = body.len() / fixed(kind);
        let mut items = Vec::with_capacity(most.min(count as usize));
        let mut end = HEADER;
        let mut before = Before::default();
        for _ in 0..count {
            let place = end;
            let read = before.next(kind, body, version, place);
            let (item, next) = read.map_err(|number| Refusal { number, place })?;
            items.push(item);
            end = next;
        }
        Ok(Self {
            kind,
            body,
            version,
            items,
            end,
        })
    }

    /// The name of an item, where `before` holds what this made of the items before it, from nothing.
    pub fn name<'n>(&self, item: &Item, before: &'n mut Vec<u8>) -> &'n [u8]
    where
        'a: 'n,
    {
        let text = &self.body[item.start..item.start + item.length];
        if self.version != 4 {
            return text;
        }
        before.truncate(item.kept);
        before.extend_from_slice(text);
        before
    }

    /// The fields of an item.
    pub fn fields(&self, item: &Item) -> Fields {
        fields(self.kind, self.body, item.place)
    }

    /// The stage of an item.
    pub fn stage(&self, item: &Item) -> u32 {
        stage(flags(self.kind, self.body, item.place)).into()
    }

    /// The extended word of an item, 0 where it has none.
    pub fn word(&self, item: &Item) -> u16 {
        word(self.kind, self.body, item.place)
    }

    /// The name of entry `k`.
    pub fn name_of(&self, k: usize) -> Vec<u8> {
        let mut before = Vec::new();
        let mut name: &[u8] = &[];
        for item in &self.items[..=k] {
            name = self.name(item, &mut before);
        }
        name.to_vec()
    }
}

impl<'a> Before<'a> {
    /// The entry at a place and the place after it, or the number of what refuses it.
    fn next(
        &mut self,
        kind: Kind,
        body: &'a [u8],
        version: u32,
        at: usize,
    ) -> Result<(Item, usize), u32> {
        let (start, flags) = head(kind, body, version, at)?;
        let (item, end, order) = if version == 4 {
            compressed(body, at, start, flags, &mut self.made)?
        } else {
            let (item, end) = plain(body, at, start, flags)?;
            let name = &body[start..start + item.length];
            let order = name.cmp(self.shown);
            self.shown = name;
            (item, end, order)
        };
        let stage = stage(flags);
        if !rises(order, self.stage, stage) {
            return Err(refusal::ORDER);
        }
        self.stage = stage;
        Ok((item, end))
    }
}

/// Whether an entry may come after another, by how its name compares with that of the other and by both stages: of one name
/// there is stage 0 alone, or others that rise.
fn rises(order: Ordering, before: u16, stage: u16) -> bool {
    match order {
        Ordering::Less => false,
        Ordering::Equal => before > 0 && stage > before,
        Ordering::Greater => true,
    }
}

/// The entry of version 2 or 3 at a place and the place after it.
pub fn entry_at(kind: Kind, body: &[u8], version: u32, at: usize) -> Result<(Item, usize), u32> {
    let (start, flags) = head(kind, body, version, at)?;
    plain(body, at, start, flags)
}

/// The fields of the sound entry at a place.
pub fn fields(kind: Kind, body: &[u8], at: usize) -> Fields {
    let number = |i: usize| long(body, at + 4 * i);
    let flags = flags(kind, body, at);
    let word = word(kind, body, at);
    Fields {
        ctime_seconds: number(0),
        ctime_nanoseconds: number(1),
        mtime_seconds: number(2),
        mtime_nanoseconds: number(3),
        dev: number(4),
        ino: number(5),
        mode: number(6),
        uid: number(7),
        gid: number(8),
        size: number(9),
        object: kind.object(&body[at + OBJECT_AT..]),
        assume_valid: flags & ASSUME_VALID != 0,
        stage: stage(flags).into(),
        skip_worktree: word & SKIP_WORKTREE != 0,
        intent_to_add: word & INTENT_TO_ADD != 0,
    }
}

/// The extended word of the sound entry at a place, 0 where it has none.
fn word(kind: Kind, body: &[u8], at: usize) -> u16 {
    if flags(kind, body, at) & EXTENDED == 0 {
        return 0;
    }
    short(body, at + fixed(kind))
}

/// The bytes of an entry of version 2 or 3, whose name is after the given number of bytes.
pub fn padded(before: usize, length: usize) -> usize {
    (before + length) / 8 * 8 + 8
}

/// A number of 32 bits.
pub fn long(bytes: &[u8], at: usize) -> u32 {
    u32::from_be_bytes([bytes[at], bytes[at + 1], bytes[at + 2], bytes[at + 3]])
}

fn short(bytes: &[u8], at: usize) -> u16 {
    u16::from_be_bytes([bytes[at], bytes[at + 1]])
}

/// The bytes of an entry before the extended word and the name.
fn fixed(kind: Kind) -> usize {
    flags_at(kind) + 2
}

/// Where its flags are.
fn flags_at(kind: Kind) -> usize {
    OBJECT_AT + kind.width()
}

fn flags(kind: Kind, body: &[u8], at: usize) -> u16 {
    short(body, at + flags_at(kind))
}

fn stage(flags: u16) -> u16 {
    flags >> STAGE_SHIFT & 3
}

/// Checks an entry up to its name: the place after that, and the flags.
fn head(kind: Kind, body: &[u8], version: u32, at: usize) -> Result<(usize, u16), u32> {
    let rest = body.get(at..).unwrap_or(&[]);
    let length = fixed(kind);
    let fixed = rest.get(..length).ok_or(refusal::ENTRY_CUT)?;
    if !MODES.contains(&long(fixed, MODE_AT)) {
        return Err(refusal::MODE);
    }
    let flags = flags(kind, fixed, 0);
    if flags & EXTENDED == 0 {
        return Ok((at + length, flags));
    }
    if version == 2 {
        return Err(refusal::FLAGS);
    }
    let word = rest.get(length..length + WORD);
    let word = word.ok_or(refusal::ENTRY_CUT)?;
    if short(word, 0) & !(SKIP_WORKTREE | INTENT_TO_ADD) != 0 {
        return Err(refusal::FLAGS);
    }
    Ok((at + length + WORD, flags))
}

/// Checks the name and the padding of an entry of version 2 or 3.
fn plain(body: &[u8], place: usize, start: usize, flags: u16) -> Result<(Item, usize), u32> {
    let length = match length_field(flags) {
        LONG => nul(body, start).ok_or(refusal::ENTRY_CUT)? - start,
        length => length,
    };
    if start + length >= body.len() {
        return Err(refusal::ENTRY_CUT);
    }
    check_name(&body[start..start + length], 0, flags)?;
    let end = place + padded(start - place, length);
    let padding = body.get(start + length..end);
    if padding.ok_or(refusal::ENTRY_CUT)?.iter().any(|b| *b != 0) {
        return Err(refusal::PADDING);
    }
    let item = Item {
        place,
        start,
        length,
        kept: 0,
    };
    Ok((item, end))
}

/// Checks N and the name of an entry of version 4. Makes the name before into this one, and says how they compare.
fn compressed(
    body: &[u8],
    place: usize,
    start: usize,
    flags: u16,
    name: &mut Vec<u8>,
) -> Result<(Item, usize, Ordering), u32> {
    let (n, start) = back(body, start)?;
    let kept = name.len().checked_sub(n).ok_or(refusal::BACK)?;
    let end = nul(body, start).ok_or(refusal::ENTRY_CUT)?;
    let text = &body[start..end];
    let order = text.cmp(&name[kept..]);
    name.truncate(kept);
    name.extend_from_slice(text);
    check_name(name, kept, flags)?;
    let item = Item {
        place,
        start,
        length: text.len(),
        kept,
    };
    Ok((item, end + 1, order))
}

/// N at a place, and the place after it.
fn back(body: &[u8], at: usize) -> Result<(usize, usize), u32> {
    let byte = |at: usize| body.get(at).map(|b| usize::from(*b));
    let first = byte(at).ok_or(refusal::ENTRY_CUT)?;
    if first < 128 {
        return Ok((first, at + 1));
    }
    match byte(at + 1).ok_or(refusal::ENTRY_CUT)? {
        second @ 0..=127 => Ok(((first - 127) * 128 + second, at + 2)),
        _ => Err(refusal::BACK),
    }
}

fn check_name(name: &[u8], kept: usize, flags: u16) -> Result<(), u32> {
    if sound(name, kept) && name.len().min(LONG) == length_field(flags) {
        Ok(())
    } else {
        Err(refusal::NAME)
    }
}

fn length_field(flags: u16) -> usize {
    usize::from(flags) & LONG
}
