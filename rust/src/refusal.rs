//! Why a call refused, and where.

use std::error::Error;
use std::fmt;

/// A refusal: its number, and the place in the file of the thing that it is about.
///
/// The place is the first byte of that thing, and 0 where the refusal is about the whole file or about the request.
///
/// ```
/// use nerupazhil::{check, Kind, Reason, WORKSPACE};
///
/// let mut file = nerupazhil::EMPTY;
/// file[31] ^= 1;
/// let refusal = check(Kind::Sha1, &file, &mut [0; WORKSPACE]).unwrap_err();
/// assert_eq!((refusal.number(), refusal.place()), (5, 12));
/// assert_eq!(refusal.reason(), Reason::Checksum);
/// assert_eq!(
///     refusal.to_string(),
///     "refused 5 at 12: the file is damaged: its checksum is neither that of its bytes nor left out"
/// );
/// ```
///
/// Debug has the sentence too, for `unwrap` and for a `main` that answers a `Result`:
///
/// ```
/// use nerupazhil::{Index, EMPTY};
///
/// let cut = Index::read(&EMPTY[..31]).unwrap_err();
/// assert_eq!(
///     format!("{cut:?}"),
///     "Refusal(refused 1 at 0: the file is shorter than an empty index: 32 bytes with SHA-1 names, 44 with SHA-256)"
/// );
/// ```
#[derive(Clone, Copy, PartialEq, Eq, Hash)]
pub struct Refusal {
    number: u32,
    place: usize,
}

impl Refusal {
    /// The refusal of a number at a place, as a raw reply has them.
    pub const fn new(number: u32, place: usize) -> Self {
        Self { number, place }
    }

    /// Its number.
    pub const fn number(self) -> u32 {
        self.number
    }

    /// The first byte of the thing that it is about.
    pub const fn place(self) -> usize {
        self.place
    }

    /// What its number means.
    pub const fn reason(self) -> Reason {
        Reason::of(self.number)
    }

    /// The refusal of a reply, where it has one.
    pub(crate) fn unless_zero(number: u32, place: usize) -> Result<(), Self> {
        match number {
            0 => Ok(()),
            _ => Err(Self::new(number, place)),
        }
    }
}

impl fmt::Display for Refusal {
    fn fmt(&self, f: &mut fmt::Formatter<'_>) -> fmt::Result {
        let Self { number, place } = self;
        write!(f, "refused {number} at {place}: {}", self.reason())
    }
}

impl fmt::Debug for Refusal {
    fn fmt(&self, f: &mut fmt::Formatter<'_>) -> fmt::Result {
        f.debug_tuple("Refusal")
            .field(&format_args!("{self}"))
            .finish()
    }
}

impl Error for Refusal {}

/// Makes the enum of the reasons from their numbers, names and sentences.
macro_rules! reasons {
    ($($number:literal $name:ident $sentence:literal)*) => {
        /// What the number of a refusal means.
        #[derive(Clone, Copy, Debug, PartialEq, Eq, Hash)]
        #[non_exhaustive]
        pub enum Reason {
            $(
                #[doc = concat!($number, ": ", $sentence, ".")]
                $name = $number,
            )*
            /// A number that this crate does not know.
            Unknown = 0,
        }

        impl Reason {
            /// What a number means.
            pub const fn of(number: u32) -> Self {
                match number {
                    $($number => Self::$name,)*
                    _ => Self::Unknown,
                }
            }

            /// A sentence without its full stop.
            const fn sentence(self) -> &'static str {
                match self {
                    $(Self::$name => $sentence,)*
                    Self::Unknown => "a refusal that this crate does not know",
                }
            }
        }
    };
}

reasons! {
    1 TooShort "the file is shorter than an empty index: 32 bytes with SHA-1 names, 44 with SHA-256"
    2 TooLong "the file, or the one that would be written, is longer than 16777216 bytes"
    3 Signature "the file does not begin with DIRC, as an index does"
    4 Version "the version of the file, or the one asked for, is not one that this call takes"
    5 Checksum "the file is damaged: its checksum is neither that of its bytes nor left out"
    6 EntryCut "an entry runs past the end of the file"
    7 EntryMode "the mode of an entry is not 100644, 100755, 120000 or 160000"
    8 EntryFlags "the flags of an entry are wrong: a bit that its version does not have, or a stage above 3"
    9 EntryName "the name of an entry is empty, too long, unlike its length field, or has a part that no name may have"
    10 EntryLayout "an entry has wrong padding, or drops more of the name before it than there is"
    11 EntryOrder "an entry does not come after the one before it by name and stage, or its path is both at stage 0 \
        and in conflict (stages 1 to 3)"
    12 ExtensionCut "an extension runs past the end of the file"
    13 ExtensionUnknown "the file has an extension that a reader must know, and this one does not"
    14 ExtensionTwice "the file has a second cache tree or a second resolve-undo extension"
    15 TreeMalformed "the cache tree is malformed"
    16 TreeCount "a count of the cache tree is not that of the entries"
    17 UndoMalformed "the resolve-undo extension is malformed"
    18 NotThere "there is no such entry, node or record"
    19 WorkspaceShort "the workspace is shorter than 8192 bytes"
    20 OutputShort "the output is too short for the result"
    21 NeedsVersion3 "version 2 was asked for, but an entry is marked skip-worktree or intent-to-add, which needs version 3 or 4"
    29 Kind "the kind of object names is not one that the library knows, or not that of the record's object name"
}

impl fmt::Display for Reason {
    fn fmt(&self, f: &mut fmt::Formatter<'_>) -> fmt::Result {
        f.write_str(self.sentence())
    }
}
