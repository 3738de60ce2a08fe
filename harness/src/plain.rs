//! SHA-1 and SHA-256 in plain Rust, written from FIPS 180-4 step by step: a schedule of 80 or 64 words, loops, and no
//! special instructions. It shares nothing with the proved library.

const BLOCK: usize = 64;

/// The SHA-1 digest of a message (6.1).
#[inline(never)]
pub fn sha1(message: &[u8]) -> [u8; 20] {
    digest(message, INITIAL_1, compress_1)
}

/// The SHA-256 digest of a message (6.2).
#[inline(never)]
pub fn sha256(message: &[u8]) -> [u8; 32] {
    digest(message, INITIAL_256, compress_256)
}

// ---- what both have

/// The hash value of a message, whose words make up the digest of so many bytes.
fn digest<const WORDS: usize, const BYTES: usize>(
    message: &[u8],
    initial: [u32; WORDS],
    compress: impl Fn([u32; WORDS], &[u8]) -> [u32; WORDS],
) -> [u8; BYTES] {
    let mut state = initial;
    let mut blocks = message.chunks_exact(BLOCK);
    for block in &mut blocks {
        state = compress(state, block);
    }
    let (padded, length) = pad(blocks.remainder(), message.len());
    for block in padded[..length].chunks_exact(BLOCK) {
        state = compress(state, block);
    }
    let mut digest = [0; BYTES];
    for (bytes, word) in digest.chunks_exact_mut(4).zip(state) {
        bytes.copy_from_slice(&word.to_be_bytes());
    }
    digest
}

/// The last one or two blocks (5.1.1): what is left of the message, a bit 1, zeros, and the length in bits.
fn pad(rest: &[u8], length: usize) -> ([u8; 2 * BLOCK], usize) {
    let mut padded = [0; 2 * BLOCK];
    padded[..rest.len()].copy_from_slice(rest);
    padded[rest.len()] = 0x80;
    let end = if rest.len() + 9 <= BLOCK {
        BLOCK
    } else {
        2 * BLOCK
    };
    padded[end - 8..end].copy_from_slice(&(length as u64 * 8).to_be_bytes());
    (padded, end)
}

/// The message schedule of a block begins with its words (6.1.2 and 6.2.2, step 1).
fn words<const COUNT: usize>(block: &[u8]) -> [u32; COUNT] {
    let mut w = [0; COUNT];
    for (word, b) in w.iter_mut().zip(block.chunks_exact(4)) {
        *word = u32::from_be_bytes([b[0], b[1], b[2], b[3]]);
    }
    w
}

/// The sums of the words of two hash values (6.1.2 and 6.2.2, step 4).
fn sums<const WORDS: usize>(mut s: [u32; WORDS], state: [u32; WORDS]) -> [u32; WORDS] {
    for (sum, word) in s.iter_mut().zip(state) {
        *sum = sum.wrapping_add(word);
    }
    s
}

fn ch(x: u32, y: u32, z: u32) -> u32 {
    (x & y) ^ (!x & z)
}

fn maj(x: u32, y: u32, z: u32) -> u32 {
    (x & y) ^ (x & z) ^ (y & z)
}

// ---- SHA-1

/// 5.3.1.
const INITIAL_1: [u32; 5] = [0x67452301, 0xefcdab89, 0x98badcfe, 0x10325476, 0xc3d2e1f0];

/// The hash value after one more block (6.1.2). Four loops: one loop that chooses the function by the round's number is
/// slower.
fn compress_1(state: [u32; 5], block: &[u8]) -> [u32; 5] {
    let w = schedule_1(block);
    let mut s = state;
    for &word in &w[..20] {
        s = round_1(s, ch(s[1], s[2], s[3]), 0x5a827999, word);
    }
    for &word in &w[20..40] {
        s = round_1(s, parity(s[1], s[2], s[3]), 0x6ed9eba1, word);
    }
    for &word in &w[40..60] {
        s = round_1(s, maj(s[1], s[2], s[3]), 0x8f1bbcdc, word);
    }
    for &word in &w[60..] {
        s = round_1(s, parity(s[1], s[2], s[3]), 0xca62c1d6, word);
    }
    sums(s, state)
}

/// One round (6.1.2, step 3) with the value of its function and its constant.
fn round_1([a, b, c, d, e]: [u32; 5], f: u32, k: u32, word: u32) -> [u32; 5] {
    let sum = a.rotate_left(5).wrapping_add(f).wrapping_add(e);
    let sum = sum.wrapping_add(k).wrapping_add(word);
    [sum, a, b.rotate_left(30), c, d]
}

fn parity(x: u32, y: u32, z: u32) -> u32 {
    x ^ y ^ z
}

fn schedule_1(block: &[u8]) -> [u32; 80] {
    let mut w = words(block);
    for t in 16..80 {
        w[t] = (w[t - 3] ^ w[t - 8] ^ w[t - 14] ^ w[t - 16]).rotate_left(1);
    }
    w
}

// ---- SHA-256

/// 5.3.3.
const INITIAL_256: [u32; 8] = [
    0x6a09e667, 0xbb67ae85, 0x3c6ef372, 0xa54ff53a, 0x510e527f, 0x9b05688c, 0x1f83d9ab, 0x5be0cd19,
];

/// 4.2.2.
const K: [u32; 64] = [
    0x428a2f98, 0x71374491, 0xb5c0fbcf, 0xe9b5dba5, 0x3956c25b, 0x59f111f1, 0x923f82a4, 0xab1c5ed5,
    0xd807aa98, 0x12835b01, 0x243185be, 0x550c7dc3, 0x72be5d74, 0x80deb1fe, 0x9bdc06a7, 0xc19bf174,
    0xe49b69c1, 0xefbe4786, 0x0fc19dc6, 0x240ca1cc, 0x2de92c6f, 0x4a7484aa, 0x5cb0a9dc, 0x76f988da,
    0x983e5152, 0xa831c66d, 0xb00327c8, 0xbf597fc7, 0xc6e00bf3, 0xd5a79147, 0x06ca6351, 0x14292967,
    0x27b70a85, 0x2e1b2138, 0x4d2c6dfc, 0x53380d13, 0x650a7354, 0x766a0abb, 0x81c2c92e, 0x92722c85,
    0xa2bfe8a1, 0xa81a664b, 0xc24b8b70, 0xc76c51a3, 0xd192e819, 0xd6990624, 0xf40e3585, 0x106aa070,
    0x19a4c116, 0x1e376c08, 0x2748774c, 0x34b0bcb5, 0x391c0cb3, 0x4ed8aa4a, 0x5b9cca4f, 0x682e6ff3,
    0x748f82ee, 0x78a5636f, 0x84c87814, 0x8cc70208, 0x90befffa, 0xa4506ceb, 0xbef9a3f7, 0xc67178f2,
];

/// The hash value after one more block (6.2.2).
fn compress_256(state: [u32; 8], block: &[u8]) -> [u32; 8] {
    let w = schedule_256(block);
    let [mut a, mut b, mut c, mut d, mut e, mut f, mut g, mut h] = state;
    for t in 0..64 {
        let sum = e.rotate_right(6) ^ e.rotate_right(11) ^ e.rotate_right(25);
        let t1 = h.wrapping_add(sum).wrapping_add(ch(e, f, g));
        let t1 = t1.wrapping_add(K[t]).wrapping_add(w[t]);
        let sum = a.rotate_right(2) ^ a.rotate_right(13) ^ a.rotate_right(22);
        let t2 = sum.wrapping_add(maj(a, b, c));
        (h, g, f, e) = (g, f, e, d.wrapping_add(t1));
        (d, c, b, a) = (c, b, a, t1.wrapping_add(t2));
    }
    sums([a, b, c, d, e, f, g, h], state)
}

fn schedule_256(block: &[u8]) -> [u32; 64] {
    let mut w: [u32; 64] = words(block);
    for t in 16..64 {
        let (x, y) = (w[t - 15], w[t - 2]);
        let sigma_0 = x.rotate_right(7) ^ x.rotate_right(18) ^ (x >> 3);
        let sigma_1 = y.rotate_right(17) ^ y.rotate_right(19) ^ (y >> 10);
        let sum = sigma_1.wrapping_add(w[t - 7]).wrapping_add(sigma_0);
        w[t] = sum.wrapping_add(w[t - 16]);
    }
    w
}
