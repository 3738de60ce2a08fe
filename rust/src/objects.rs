//! The kinds of object names, and the names.

use std::error::Error;
use std::fmt;

use crate::raw::{DIGEST, DIGEST_SHA256, OBJECT, SHA1, SHA256};
use crate::{sha1, sha256, EMPTY, EMPTY_SHA256};

/// Which hash function gives the object names of a repository, and the checksum of its index.
///
/// An index does not say of which kind it is; its repository does: `git rev-parse --show-object-format`. One of the other
/// kind is refused, nearly always with 5; but with its [checksum left out](crate::Checksum::LeftOut) the same bytes may
/// be read as both.
#[derive(Clone, Copy, Debug, Default, PartialEq, Eq, PartialOrd, Ord, Hash)]
pub enum Kind {
    /// SHA-1, whose digests have 20 bytes.
    #[default]
    Sha1,
    /// SHA-256, whose digests have 32 bytes.
    Sha256,
}

impl Kind {
    /// The number by which the library is asked.
    pub const fn number(self) -> u32 {
        match self {
            Self::Sha1 => SHA1,
            Self::Sha256 => SHA256,
        }
    }

    /// How many bytes an object name and a checksum have: 20 or 32.
    pub const fn width(self) -> usize {
        match self {
            Self::Sha1 => DIGEST,
            Self::Sha256 => DIGEST_SHA256,
        }
    }

    /// The digest of bytes, by which Git names objects.
    ///
    /// ```
    /// use nerupazhil::Kind;
    ///
    /// // The name of the empty file's object.
    /// let name = Kind::Sha1.hash(b"blob 0\0");
    /// assert_eq!(name.to_string(), "e69de29bb2d1d6434b8b29ae775ad8c2e48c5391");
    /// ```
    pub fn hash(self, bytes: &[u8]) -> ObjectName {
        match self {
            Self::Sha1 => sha1(bytes).into(),
            Self::Sha256 => sha256(bytes).into(),
        }
    }

    /// The index without entries: [`EMPTY`] or [`EMPTY_SHA256`].
    pub const fn empty(self) -> &'static [u8] {
        match self {
            Self::Sha1 => &EMPTY,
            Self::Sha256 => &EMPTY_SHA256,
        }
    }

    /// The kind of a number.
    pub(crate) fn of(number: u32) -> Option<Self> {
        match number {
            SHA1 => Some(Self::Sha1),
            SHA256 => Some(Self::Sha256),
            _ => None,
        }
    }
}

/// The name of an object: 20 bytes with SHA-1, 32 with SHA-256. Names of different kinds are never equal.
///
/// ```
/// use nerupazhil::{Kind, ObjectName};
///
/// let name = ObjectName::from([0x5a; 20]);
/// assert_eq!((name.kind(), name.as_bytes()), (Kind::Sha1, &[0x5a; 20][..]));
/// assert_eq!(name.to_string(), "5a".repeat(20));
///
/// assert_eq!(ObjectName::try_from(&[0x5a; 32][..])?.kind(), Kind::Sha256);
/// assert!(ObjectName::try_from(&[0x5a; 21][..]).is_err());
/// # Ok::<(), nerupazhil::WrongLength>(())
/// ```
#[derive(Clone, Copy, PartialEq, Eq, PartialOrd, Ord, Hash)]
pub struct ObjectName {
    kind: Kind,
    /// The name, and zeros after it.
    bytes: [u8; OBJECT],
}

impl ObjectName {
    /// A SHA-1 name.
    pub const fn sha1(name: [u8; DIGEST]) -> Self {
        let mut bytes = [0; OBJECT];
        let mut k = 0;
        while k < DIGEST {
            bytes[k] = name[k];
            k += 1;
        }
        let kind = Kind::Sha1;
        Self { kind, bytes }
    }

    /// A SHA-256 name.
    pub const fn sha256(bytes: [u8; DIGEST_SHA256]) -> Self {
        let kind = Kind::Sha256;
        Self { kind, bytes }
    }

    /// The name of a kind that is all zeros.
    pub const fn zero(kind: Kind) -> Self {
        let bytes = [0; OBJECT];
        Self { kind, bytes }
    }

    /// Its kind.
    pub const fn kind(&self) -> Kind {
        self.kind
    }

    /// Its bytes: 20 or 32.
    pub fn as_bytes(&self) -> &[u8] {
        &self.bytes[..self.kind.width()]
    }

    /// The name of a kind in the bytes that were lent for one; those after it are left out.
    #[inline]
    pub(crate) fn of(kind: Kind, lent: [u8; OBJECT]) -> Self {
        let mut name = Self::zero(kind);
        name.bytes[..kind.width()].copy_from_slice(&lent[..kind.width()]);
        name
    }

    /// The bytes that are lent for it.
    #[inline]
    pub(crate) const fn lent(&self) -> [u8; OBJECT] {
        self.bytes
    }
}

/// The SHA-1 name that is all zeros.
impl Default for ObjectName {
    fn default() -> Self {
        Self::zero(Kind::default())
    }
}

impl From<[u8; DIGEST]> for ObjectName {
    fn from(name: [u8; DIGEST]) -> Self {
        Self::sha1(name)
    }
}

impl From<[u8; DIGEST_SHA256]> for ObjectName {
    fn from(name: [u8; DIGEST_SHA256]) -> Self {
        Self::sha256(name)
    }
}

/// 20 bytes are a SHA-1 name, 32 a SHA-256 name.
impl TryFrom<&[u8]> for ObjectName {
    type Error = WrongLength;

    fn try_from(name: &[u8]) -> Result<Self, WrongLength> {
        match (<[u8; DIGEST]>::try_from(name), name.try_into()) {
            (Ok(name), _) => Ok(Self::sha1(name)),
            (_, Ok(name)) => Ok(Self::sha256(name)),
            _ => Err(WrongLength(name.len())),
        }
    }
}

impl AsRef<[u8]> for ObjectName {
    fn as_ref(&self) -> &[u8] {
        self.as_bytes()
    }
}

/// The hex digits, 40 or 64, as Git has them.
impl fmt::Display for ObjectName {
    fn fmt(&self, f: &mut fmt::Formatter<'_>) -> fmt::Result {
        self.as_bytes()
            .iter()
            .try_for_each(|byte| write!(f, "{byte:02x}"))
    }
}

impl fmt::Debug for ObjectName {
    fn fmt(&self, f: &mut fmt::Formatter<'_>) -> fmt::Result {
        write!(f, "ObjectName({self})")
    }
}

/// So many bytes are no object name: it has 20 or 32.
#[derive(Clone, Copy, Debug, PartialEq, Eq)]
pub struct WrongLength(pub usize);

impl fmt::Display for WrongLength {
    fn fmt(&self, f: &mut fmt::Formatter<'_>) -> fmt::Result {
        write!(f, "{} bytes are no object name, which has 20 or 32", self.0)
    }
}

impl Error for WrongLength {}
