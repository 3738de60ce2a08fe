//! The kinds of object names: the hash function that gives them, and how many bytes they have.

use crate::plain;

/// The bytes that are lent for an object name of any kind. One of fewer bytes has zeros after it.
pub const OBJECT: usize = 32;

/// An object name with room for any kind.
pub type Object = [u8; OBJECT];

/// Numbers that no kind has.
pub const UNKNOWN: [u32; 5] = [0, 3, 20, 0x0100_0000, u32::MAX];

#[derive(Clone, Copy, Debug, PartialEq, Eq, PartialOrd, Ord)]
pub enum Kind {
    Sha1,
    Sha256,
}

impl Kind {
    pub const ALL: [Self; 2] = [Self::Sha1, Self::Sha256];

    /// The kind of a number.
    pub fn of(number: u32) -> Option<Self> {
        Self::ALL.into_iter().find(|kind| kind.number() == number)
    }

    pub fn number(self) -> u32 {
        match self {
            Self::Sha1 => 1,
            Self::Sha256 => 2,
        }
    }

    /// How many bytes an object name has, and a checksum.
    pub fn width(self) -> usize {
        match self {
            Self::Sha1 => 20,
            Self::Sha256 => 32,
        }
    }

    pub fn name(self) -> &'static str {
        match self {
            Self::Sha1 => "SHA-1",
            Self::Sha256 => "SHA-256",
        }
    }

    /// The digest of a message, with zeros after it.
    pub fn hash(self, message: &[u8]) -> Object {
        match self {
            Self::Sha1 => self.object(&plain::sha1(message)),
            Self::Sha256 => plain::sha256(message),
        }
    }

    /// The bytes of a file, or of one to be made, with their checksum.
    pub fn signed(self, mut body: Vec<u8>) -> Vec<u8> {
        let digest = self.hash(&body);
        body.extend(&digest[..self.width()]);
        body
    }

    /// The bytes of a file whose checksum is left out.
    pub fn left_out(self, body: &[u8]) -> Vec<u8> {
        [body, &vec![0; self.width()]].concat()
    }

    /// A file, which is long enough to have one, less its checksum.
    pub fn body(self, file: &[u8]) -> &[u8] {
        &file[..file.len() - self.width()]
    }

    /// Whether zeros are in place of a file's checksum. No digest of a test is zeros itself.
    pub fn is_left_out(self, file: &[u8]) -> bool {
        file.len() >= self.width() && file.iter().rev().take(self.width()).all(|byte| *byte == 0)
    }

    /// The object name of these bytes, of which there are enough, with zeros after it.
    pub fn object(self, bytes: &[u8]) -> Object {
        let mut object = [0; OBJECT];
        object[..self.width()].copy_from_slice(&bytes[..self.width()]);
        object
    }

    /// The object name that has one value in all its bytes.
    pub fn object_of(self, value: u8) -> Object {
        self.object(&[value; OBJECT])
    }
}
