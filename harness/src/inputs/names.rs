//! Names that an index may have, and names that it may not.

use crate::random::Random;

/// The most bytes of a name.
pub const LONGEST: usize = 8192;

/// Few and alike, so that names share beginnings and directories.
const COMMON: [&[u8]; 12] = [
    b"a", b"b", b"c", b"ab", b"a-b", b"a.b", b"a0", b"A", b"x.txt", b"list", b"0", b"~",
];
/// Sound, though they look like bad ones or have strange bytes.
const ODD: [&[u8]; 16] = [
    b".gi",
    b"aaa.gi",
    b"aaa.git",
    b"aaa.",
    b"aaa..",
    b".gitx",
    b".Git",
    b"..a",
    b"...",
    b"a..",
    b"\x01",
    b"\xff",
    b"\\",
    b"a b",
    b"\n",
    b"\xc3\xa9",
];
/// Around the limits of the length field, of the code for N and of names.
const LENGTHS: [usize; 12] = [
    126, 127, 128, 129, 4093, 4094, 4095, 4096, 4097, 8190, 8191, 8192,
];
/// Names that break a rule.
pub const BAD: [&[u8]; 24] = [
    b"",
    b"/",
    b"//",
    b"/a",
    b"a/",
    b"a//b",
    b".",
    b"..",
    b".git",
    b"./a",
    b"../a",
    b".git/a",
    b"a/.",
    b"a/..",
    b"a/.git",
    b"a/./b",
    b"a/../b",
    b"a/.git/b",
    b"a/b/",
    b"a-b//c",
    b"\0",
    b"a\0b",
    b"\0a",
    b"a\0",
];

/// A sound component.
pub fn component(random: &mut Random) -> Vec<u8> {
    match random.below(10) {
        0..=6 => random.pick(&COMMON).to_vec(),
        7 => random.pick(&ODD).to_vec(),
        8 => vec![b'a'; 1 + random.below(40)],
        _ => {
            let length = 1 + random.below(12);
            let mut bytes = random.bytes(length);
            bytes[0] = b'z';
            bytes.retain(|byte| !b"\0/".contains(byte));
            bytes
        }
    }
}

/// A sound name of at most the given number of components.
pub fn sound(random: &mut Random, components: usize) -> Vec<u8> {
    let count = 1 + random.below(components);
    let parts: Vec<_> = (0..count).map(|_| component(random)).collect();
    parts.join(&b'/')
}

/// A long sound name: of one component, of many, or of some after a shorter name.
pub fn long(random: &mut Random) -> Vec<u8> {
    let length = *random.pick(&LENGTHS);
    let mut name = match random.below(3) {
        0 => Vec::new(),
        1 => [sound(random, 2), b"/".to_vec()].concat(),
        _ => b"p/".repeat(random.below(length / 2)),
    };
    let letter = *random.pick(b"pq");
    name.resize(length, letter);
    name
}

/// A name that breaks a rule.
pub fn bad(random: &mut Random) -> Vec<u8> {
    match random.below(6) {
        0 => vec![b'n'; LONGEST + 1],
        1 => {
            let tail = random.pick(&BAD).to_vec();
            [sound(random, 2), b"/".to_vec(), tail].concat()
        }
        _ => random.pick(&BAD).to_vec(),
    }
}
