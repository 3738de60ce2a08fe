//! A checked file, with its edits as new files.

use std::borrow::Cow;
use std::fmt;

use crate::raw::Fields;
use crate::{
    check, entry, put, remove, rewrite, tree_node, undo_record, Entry, Kind, Reason, Refusal,
    Summary, TreeNode, UndoRecord, Version, Walk, MAX_FILE, WORKSPACE,
};

/// A file that was checked. It allocates what the calls need, and borrows the file.
///
/// ```
/// # let file = include_bytes!(concat!(env!("CARGO_MANIFEST_DIR"), "/../tests/vectors/real/v4-committed.index"));
/// use nerupazhil::Index;
///
/// let index = Index::read(file)?;
/// assert_eq!(index.summary().version, 4);
/// assert_eq!(index.entries()?.next().unwrap().name, b"a-b");
/// # Ok::<(), nerupazhil::Refusal>(())
/// ```
#[derive(Clone)]
pub struct Index<'a> {
    kind: Kind,
    file: &'a [u8],
    summary: Summary,
    /// The same entries in version 2 or 3, over which a walk can go, or why there is no such file.
    plain: Result<Cow<'a, [u8]>, Refusal>,
}

impl<'a> Index<'a> {
    /// Checks a file with SHA-1 names. One of version 4 is also rewritten in version 2 or 3, for
    /// [`entries`](Self::entries).
    ///
    /// ```
    /// use nerupazhil::{Index, Reason};
    ///
    /// let refusal = Index::read(b"not an index, and long enough to be one").unwrap_err();
    /// assert_eq!(refusal.reason(), Reason::Signature);
    /// ```
    pub fn read(file: &'a [u8]) -> Result<Self, Refusal> {
        Self::read_kind(Kind::Sha1, file)
    }

    /// Checks a file with object names of a kind, as [`read`](Self::read) does for SHA-1.
    ///
    /// ```
    /// use nerupazhil::{mode, Fields, Index, Kind, Reason, Version, EMPTY_SHA256};
    ///
    /// let index = Index::read_kind(Kind::Sha256, &EMPTY_SHA256)?;
    /// let fields = Fields { mode: mode::REGULAR, object: [0x11; 32].into(), ..Fields::default() };
    /// let file = index.with(b"saw/cut.txt", &fields, Version::default())?;
    ///
    /// let index = Index::read_kind(Kind::Sha256, &file)?;
    /// assert_eq!(index.entries()?.next().unwrap().fields.object, [0x11; 32].into());
    ///
    /// // It is no index with SHA-1 names, nor does it take one.
    /// assert_eq!(Index::read(&file).unwrap_err().reason(), Reason::Checksum);
    /// let fields = Fields { object: [0x11; 20].into(), ..fields };
    /// let refusal = index.with(b"plan", &fields, Version::default()).unwrap_err();
    /// assert_eq!(refusal.reason(), Reason::Kind);
    /// # Ok::<(), nerupazhil::Refusal>(())
    /// ```
    pub fn read_kind(kind: Kind, file: &'a [u8]) -> Result<Self, Refusal> {
        let summary = check(kind, file, &mut [0; WORKSPACE])?;
        let plain = match summary.version {
            4 => rewritten(kind, file, Version::Lowest).map(Cow::Owned),
            _ => Ok(Cow::Borrowed(file)),
        };
        Ok(Self {
            kind,
            file,
            summary,
            plain,
        })
    }

    /// The kind of its object names.
    pub fn kind(&self) -> Kind {
        self.kind
    }

    /// The file.
    pub fn file(&self) -> &'a [u8] {
        self.file
    }

    /// What check answered.
    pub fn summary(&self) -> Summary {
        self.summary
    }

    /// All entries, in order. Nothing is checked again.
    ///
    /// Names of version 4 are those of a copy that [`read`](Self::read) made. Where this copy would be longer than
    /// 16 MiB the answer is refusal 2, and [`entry`](Self::entry) remains.
    ///
    /// ```
    /// # let file = include_bytes!(concat!(env!("CARGO_MANIFEST_DIR"), "/../tests/vectors/real/v2-conflict.index"));
    /// use nerupazhil::Index;
    ///
    /// let index = Index::read(file)?;
    /// let conflicts = index.entries()?.filter(|entry| entry.fields.stage > 0);
    /// assert!(conflicts.count() > 0);
    /// # Ok::<(), nerupazhil::Refusal>(())
    /// ```
    pub fn entries(&self) -> Result<Walk<'_>, Refusal> {
        match &self.plain {
            Ok(plain) => Ok(Walk::over(self.kind, plain, self.summary.entries)),
            Err(refusal) => Err(*refusal),
        }
    }

    /// Entry `k`, from 0. This reads and checks the whole file; the name of version 4 is in the workspace.
    ///
    /// ```
    /// # let file = include_bytes!(concat!(env!("CARGO_MANIFEST_DIR"), "/../tests/vectors/real/v4-committed.index"));
    /// use nerupazhil::{Index, WORKSPACE};
    ///
    /// let index = Index::read(file)?;
    /// assert_eq!(index.entry(&mut [0; WORKSPACE], 0)?.name, b"a-b");
    /// # Ok::<(), nerupazhil::Refusal>(())
    /// ```
    pub fn entry<'b>(&'b self, work: &'b mut [u8], k: u32) -> Result<Entry<'b>, Refusal> {
        entry(self.kind, self.file, work, k)
    }

    /// Node `k` of the cache tree, from 0. This reads and checks the whole file, so that there is no iterator of them:
    /// all nodes of a large file take long.
    ///
    /// ```
    /// # let file = include_bytes!(concat!(env!("CARGO_MANIFEST_DIR"), "/../tests/vectors/real/v2-committed.index"));
    /// use nerupazhil::Index;
    ///
    /// let index = Index::read(file)?;
    /// for k in 0..index.summary().nodes.unwrap_or(0) {
    ///     assert!(index.tree_node(k)?.tree.is_some());
    /// }
    /// # Ok::<(), nerupazhil::Refusal>(())
    /// ```
    pub fn tree_node(&self, k: u32) -> Result<TreeNode<'a>, Refusal> {
        tree_node(self.kind, self.file, &mut [0; WORKSPACE], k)
    }

    /// Resolve-undo record `k`, from 0. This reads and checks the whole file.
    ///
    /// ```
    /// # let file = include_bytes!(concat!(env!("CARGO_MANIFEST_DIR"), "/../tests/vectors/real/v2-resolve-undo.index"));
    /// use nerupazhil::Index;
    ///
    /// let index = Index::read(file)?;
    /// for k in 0..index.summary().records.unwrap_or(0) {
    ///     assert!(!index.undo_record(k)?.path.is_empty());
    /// }
    /// # Ok::<(), nerupazhil::Refusal>(())
    /// ```
    pub fn undo_record(&self, k: u32) -> Result<UndoRecord<'a>, Refusal> {
        undo_record(self.kind, self.file, &mut [0; WORKSPACE], k)
    }

    /// A new file with the same records, in a version: see [`rewrite`].
    ///
    /// ```
    /// use nerupazhil::{Index, Version, EMPTY};
    ///
    /// let file = Index::read(&EMPTY)?.rewritten(Version::default())?;
    /// assert_eq!(Index::read(&file)?.summary().version, 4);
    /// assert_eq!(Index::read(&file)?.rewritten(Version::Lowest)?, EMPTY);
    /// # Ok::<(), nerupazhil::Refusal>(())
    /// ```
    pub fn rewritten(&self, version: Version) -> Result<Vec<u8>, Refusal> {
        rewritten(self.kind, self.file, version)
    }

    /// A new file with one entry more, or with another one of its name and stage: see [`put`]. A new list is best written
    /// by the default, one that was there as [`Summary::version_kept`] says.
    ///
    /// ```
    /// use nerupazhil::{mode, Fields, Index, Version, EMPTY};
    ///
    /// let index = Index::read(&EMPTY)?;
    /// let fields = Fields { mode: mode::REGULAR, object: [0x11; 20].into(), ..Fields::default() };
    /// let file = index.with(b"saw/cut.txt", &fields, Version::default())?;
    /// assert_eq!(Index::read(&file)?.summary().entries, 1);
    /// # Ok::<(), nerupazhil::Refusal>(())
    /// ```
    ///
    /// Stage 0 beside a conflict of its name is refused. To settle the conflict, take its stages out first, and save the
    /// last file alone:
    ///
    /// ```
    /// # let file = include_bytes!(concat!(env!("CARGO_MANIFEST_DIR"), "/../tests/vectors/real/v2-conflict.index"));
    /// use nerupazhil::{mode, Fields, Index, Refusal};
    ///
    /// let index = Index::read(file)?;
    /// let version = index.summary().version_kept();
    /// let merged = Fields { mode: mode::REGULAR, object: [0x11; 20].into(), ..Fields::default() };
    /// assert_eq!(index.with(b"plan", &merged, version), Err(Refusal::new(11, 0)));
    ///
    /// let mut file = file.to_vec();
    /// for entry in index.entries()?.filter(|entry| entry.name == b"plan") {
    ///     file = Index::read(&file)?.without(entry.name, entry.fields.stage, version)?;
    /// }
    /// file = Index::read(&file)?.with(b"plan", &merged, version)?;
    /// assert_eq!(Index::read(&file)?.summary().entries, 17); // there were 19
    /// # Ok::<(), Refusal>(())
    /// ```
    pub fn with(&self, name: &[u8], fields: &Fields, version: Version) -> Result<Vec<u8>, Refusal> {
        let start = usual(self.file.len() + name.len());
        growing(start, |work, out| {
            put(self.kind, self.file, work, out, version, name, fields).map(|file| file.len())
        })
    }

    /// A new file without the entry of a name and stage: see [`remove`].
    ///
    /// ```
    /// # let file = include_bytes!(concat!(env!("CARGO_MANIFEST_DIR"), "/../tests/vectors/real/v2-committed.index"));
    /// use nerupazhil::Index;
    ///
    /// let index = Index::read(file)?;
    /// let file = index.without(b"a-b", 0, index.summary().version_kept())?;
    /// assert_eq!(Index::read(&file)?.summary().entries, 19);
    /// # Ok::<(), nerupazhil::Refusal>(())
    /// ```
    pub fn without(&self, name: &[u8], stage: u32, version: Version) -> Result<Vec<u8>, Refusal> {
        growing(usual(self.file.len()), |work, out| {
            remove(self.kind, self.file, work, out, version, name, stage).map(|file| file.len())
        })
    }
}

impl fmt::Debug for Index<'_> {
    fn fmt(&self, f: &mut fmt::Formatter<'_>) -> fmt::Result {
        f.debug_struct("Index")
            .field("kind", &self.kind)
            .field("summary", &self.summary)
            .finish_non_exhaustive()
    }
}

fn rewritten(kind: Kind, file: &[u8], version: Version) -> Result<Vec<u8>, Refusal> {
    growing(usual(file.len()), |work, out| {
        rewrite(kind, file, work, out, version).map(|file| file.len())
    })
}

/// A size that is enough for the result but where the names of version 4 are written out.
fn usual(given: usize) -> usize {
    2 * given + 128
}

/// Calls with an output that grows until the result fits. A result over the limit is refused with 2, whatever the
/// output's size, so that an output of this size is never too small.
fn growing<F>(start: usize, mut call: F) -> Result<Vec<u8>, Refusal>
where
    F: FnMut(&mut [u8], &mut [u8]) -> Result<usize, Refusal>,
{
    let mut work = [0; WORKSPACE];
    let mut size = start.min(MAX_FILE);
    loop {
        let mut out = vec![0; size];
        match call(&mut work, &mut out) {
            Ok(length) => {
                out.truncate(length);
                out.shrink_to_fit();
                return Ok(out);
            }
            Err(refusal) if refusal.reason() == Reason::OutputShort && size < MAX_FILE => {
                size = (2 * size).min(MAX_FILE);
            }
            Err(refusal) => return Err(refusal),
        }
    }
}
