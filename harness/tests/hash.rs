//! The proved hash functions, called as C calls them, against plain Rust.

#![deny(warnings)]

use harness::ffi::HASHES;
use harness::kind::Kind;
use harness::random::Random;
use std::ptr;

/// What fills the bytes around an input and an output.
const GUARD: u8 = 0xa5;

fn hex(bytes: &[u8]) -> String {
    bytes.iter().map(|byte| format!("{byte:02x}")).collect()
}

/// The digest of plain Rust.
fn plain(kind: Kind, message: &[u8]) -> String {
    hex(&kind.hash(message)[..kind.width()])
}

/// The digest of nothing and of "abc".
fn short_digests(kind: Kind) -> [&'static str; 2] {
    match kind {
        Kind::Sha1 => [
            "da39a3ee5e6b4b0d3255bfef95601890afd80709",
            "a9993e364706816aba3e25717850c26c9cd0d89d",
        ],
        Kind::Sha256 => [
            "e3b0c44298fc1c149afbf4c8996fb92427ae41e4649b934ca495991b7852b855",
            "ba7816bf8f01cfea414140de5dae2223b00361a396177a9cb410ff61f20015ad",
        ],
    }
}

#[track_caller]
fn same(message: &[u8]) {
    for hash in HASHES {
        let ours = hash.digest(message);
        let (name, length) = (hash.kind.name(), message.len());
        assert_eq!(
            ours,
            hash.kind.hash(message),
            "{name}, a message of {length} bytes"
        );
    }
}

/// The published examples: "abc" and the 56-byte message of FIPS 180-4, and the long one of FIPS 180-2.
#[test]
fn plain_gives_the_published_digests() {
    let two_blocks = b"abcdbcdecdefdefgefghfghighijhijkijkljklmklmnlmnomnopnopq";
    let long = [b'a'; 1_000_000];
    for (kind, two, million) in [
        (
            Kind::Sha1,
            "84983e441c3bd26ebaae4aa1f95129e5e54670f1",
            "34aa973cd4c4daa4f61eeb2bdbad27316534016f",
        ),
        (
            Kind::Sha256,
            "248d6a61d20638b8e5c026930c3e6039a33ce45964ff2167f6ecedd419db06c1",
            "cdc76e5c9914fb9281a1c7e284d73e67f1809a48a497200e046d39ccc7112cd0",
        ),
    ] {
        let [nothing, abc] = short_digests(kind);
        assert_eq!(plain(kind, b""), nothing);
        assert_eq!(plain(kind, b"abc"), abc);
        assert_eq!(plain(kind, two_blocks), two);
        assert_eq!(plain(kind, &long), million);
    }
}

#[test]
fn every_length_to_300() {
    let message = Random(1).bytes(300);
    for length in 0..=300 {
        same(&message[..length]);
    }
}

#[test]
fn bytes_of_one_value() {
    for value in [0x00, 0x7f, 0x80, 0xff] {
        for length in [1, 55, 56, 63, 64, 65, 1000] {
            same(&vec![value; length]);
        }
    }
}

#[test]
fn lengths_around_multiples_of_64() {
    let message = Random(2).bytes(64 * 70);
    for blocks in 1..=64 {
        for length in 64 * blocks - 10..=64 * blocks + 2 {
            same(&message[..length]);
        }
    }
}

#[test]
fn random_longer_messages() {
    let mut random = Random(3);
    for _ in 0..200 {
        let length = 300 + random.below(20_000);
        same(&random.bytes(length));
    }
    for length in [1 << 20, (1 << 20) + 55, 3_000_001] {
        same(&random.bytes(length));
    }
}

/// The length in bits takes more than 32 bits.
#[test]
fn a_length_of_33_bits() {
    same(&vec![0; (1 << 29) + 3]);
}

#[test]
fn unaligned_slices() {
    let message = Random(4).bytes(400);
    for start in 0..32 {
        for length in [0, 1, 55, 56, 63, 64, 65, 127, 128, 129, 300] {
            same(&message[start..start + length]);
        }
    }
}

#[test]
fn null_with_length_0_is_the_empty_message() {
    for hash in HASHES {
        let mut out = vec![GUARD; hash.kind.width()];
        // SAFETY: no byte is read where the length is 0, and `out` has as many bytes as a digest.
        unsafe { (hash.call)(ptr::null(), 0, out.as_mut_ptr()) };
        assert_eq!(hex(&out), short_digests(hash.kind)[0]);
    }
}

/// The digest of the middle of a buffer goes into the middle of another, at every alignment of both. Nothing
/// else of the two may change.
#[test]
fn bytes_around_input_and_output_stay() {
    for hash in HASHES {
        let width = hash.kind.width();
        for front in 16..32 {
            for length in [0, 1, 55, 56, 64, 119, 120, 200] {
                let message = Random(5).bytes(length);
                let mut input = guarded(front, &message);
                let mut output = guarded(front, &vec![0; width]);
                let out = output[front..].as_mut_ptr();
                // SAFETY: `length` bytes start at `front` of the input, and more bytes than a digest has at `out`. The
                // input's pointer is a mutable one, so that the comparison below would see a write through it.
                unsafe { (hash.call)(input[front..].as_mut_ptr(), length, out) };
                assert_eq!(input, guarded(front, &message));
                let digest = hash.kind.hash(&message);
                assert_eq!(output, guarded(front, &digest[..width]));
            }
        }
    }
}

/// `front` guard bytes, the bytes given, and 64 guard bytes.
fn guarded(front: usize, bytes: &[u8]) -> Vec<u8> {
    let mut whole = vec![GUARD; front];
    whole.extend(bytes);
    whole.extend([GUARD; 64]);
    whole
}

/// What `out` held before plays no part.
#[test]
fn the_old_output_plays_no_part() {
    for hash in HASHES {
        for fill in [0x00, 0xff] {
            let mut out = vec![fill; hash.kind.width()];
            // SAFETY: the pointer and the length are those of a slice, and `out` has as many bytes as a digest.
            unsafe { (hash.call)(b"abc".as_ptr(), 3, out.as_mut_ptr()) };
            assert_eq!(hex(&out), short_digests(hash.kind)[1]);
        }
    }
}
