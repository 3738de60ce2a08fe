//! Index files, laid out for tests and benchmarks.

use crate::kind::Kind;
use crate::replies::Fields;

/// The most bytes that an index may have.
pub const LARGEST: usize = 16 << 20;
/// Each byte of an object name.
pub const OBJECT: u8 = 0x5a;

/// An index of one kind and version, written entry by entry.
pub struct File {
    kind: Kind,
    pub bytes: Vec<u8>,
    entries: u32,
    previous: Vec<u8>,
    version: u32,
}

impl File {
    pub fn new(kind: Kind, version: u32) -> Self {
        let mut bytes = b"DIRC".to_vec();
        bytes.extend(version.to_be_bytes());
        bytes.extend([0; 4]);
        Self {
            kind,
            bytes,
            entries: 0,
            previous: Vec::new(),
            version,
        }
    }

    pub fn entry(&mut self, name: &[u8]) {
        let start = self.bytes.len();
        self.bytes.extend([0; 24]);
        self.bytes.extend(0o100644u32.to_be_bytes());
        self.bytes.extend([0; 12]);
        self.bytes.extend(object(self.kind));
        self.bytes
            .extend((name.len().min(4095) as u16).to_be_bytes());
        if self.version == 4 {
            let kept = common(&self.previous, name);
            self.bytes.extend(offset_code(self.previous.len() - kept));
            self.bytes.extend(&name[kept..]);
            self.bytes.push(0);
        } else {
            self.bytes.extend(name);
            let length = self.bytes.len() - start;
            self.bytes.extend(vec![0; padding(length)]);
        }
        self.previous = name.to_vec();
        self.entries += 1;
    }

    pub fn extension(&mut self, signature: &[u8; 4], data: &[u8]) {
        self.bytes.extend(signature);
        self.bytes.extend((data.len() as u32).to_be_bytes());
        self.bytes.extend(data);
    }

    pub fn finish(mut self) -> Vec<u8> {
        let entries = self.entries.to_be_bytes();
        self.bytes[8..12].copy_from_slice(&entries);
        let bytes = self.kind.signed(self.bytes);
        assert!(bytes.len() <= LARGEST, "{} bytes", bytes.len());
        bytes
    }
}

/// How many bytes two names share at their start.
pub fn common(a: &[u8], b: &[u8]) -> usize {
    a.iter().zip(b).take_while(|(a, b)| a == b).count()
}

/// The number N of version 4, which is at most 16,511: one byte, or two with 1 added to the first digit.
pub fn offset_code(n: usize) -> Vec<u8> {
    match n {
        0..=127 => vec![n as u8],
        _ => vec![(127 + n / 128) as u8, (n % 128) as u8],
    }
}

/// How many NULs, 1 to 8, follow an entry of versions 2 and 3 that has the given number of bytes with its name.
pub fn padding(length: usize) -> usize {
    8 - length % 8
}

/// The object name of entries and nodes.
pub fn object(kind: Kind) -> Vec<u8> {
    vec![OBJECT; kind.width()]
}

/// The fields of an entry for a file.
pub fn list_entry(kind: Kind) -> Fields {
    Fields {
        mode: 0o100644,
        object: kind.object_of(OBJECT),
        ..Fields::default()
    }
}

/// A node: name, NUL, count, space, subtrees, LF, and an object name where the count is not negative.
pub fn node(kind: Kind, data: &mut Vec<u8>, name: &[u8], count: i64, subtrees: usize) {
    data.extend(name);
    data.extend(format!("\0{count} {subtrees}\n").bytes());
    if count >= 0 {
        data.extend(object(kind));
    }
}

/// The number i in `width` letters, so that numbers rise as the texts do.
pub fn letters(mut i: usize, width: usize) -> Vec<u8> {
    let mut name = vec![b'a'; width];
    for place in name.iter_mut().rev() {
        *place = b'a' + (i % 26) as u8;
        i /= 26;
    }
    name
}

/// How the subtrees of a node are ordered: as the index shows them first, or as Git writes them, by length and then by
/// bytes.
#[derive(Clone, Copy)]
pub enum Order {
    Index,
    Git,
}

/// How many subdirectories a directory has, by its level, the root first: as many as a file takes, without any below
/// them or with two levels below them.
pub const FLAT: &[usize] = &[usize::MAX];
pub const NESTED: &[usize] = &[usize::MAX, 12, 12];

/// A file as Git keeps it for a large repository, to be laid out: twenty files in each directory, and a cache tree of
/// valid nodes. It takes the most entries that fit both limits.
pub struct Repository {
    pub kind: Kind,
    pub version: u32,
    pub widths: &'static [usize],
    pub order: Order,
    pub most_entries: usize,
    pub most_bytes: usize,
}

impl Repository {
    /// The file, and the names of its entries.
    pub fn lay_out(&self) -> (Vec<u8>, Vec<Vec<u8>>) {
        let mut entries = Entries {
            plan: self,
            file: File::new(self.kind, self.version),
            names: Vec::new(),
        };
        entries.directory(b"", self.widths);
        let Entries {
            mut file, names, ..
        } = entries;
        let slices: Vec<&[u8]> = names.iter().map(Vec::as_slice).collect();
        let mut data = Vec::new();
        self.full_tree(&mut data, b"", &slices);
        file.extension(b"TREE", &data);
        (file.finish(), names)
    }

    /// The valid node of a directory and all below it, from the names of its entries, as they are after its path.
    fn full_tree(&self, data: &mut Vec<u8>, name: &[u8], names: &[&[u8]]) {
        let mut subtrees = subdirectories(names);
        if let Order::Git = self.order {
            subtrees.sort_by_key(|(directory, _)| (directory.len(), *directory));
        }
        node(self.kind, data, name, names.len() as i64, subtrees.len());
        for (directory, below) in subtrees {
            self.full_tree(data, directory, &below);
        }
    }
}

/// The entries of a repository, as far as they are laid out.
struct Entries<'a> {
    plan: &'a Repository,
    file: File,
    names: Vec<Vec<u8>>,
}

impl Entries<'_> {
    /// The entries below a path, in the index's order: those of the subdirectories, then the files.
    fn directory(&mut self, path: &[u8], widths: &[usize]) {
        if let Some((&width, below)) = widths.split_first() {
            let mut i = 0;
            while i < width && !self.full() {
                self.directory(&[path, &directory_name(i), b"/"].concat(), below);
                i += 1;
            }
        }
        self.files(path);
    }

    fn files(&mut self, path: &[u8]) {
        for i in 0..20 {
            if self.full() {
                return;
            }
            let name = [path, b"list-", &letters(i, 4), b".txt"].concat();
            self.file.entry(&name);
            self.names.push(name);
        }
    }

    /// An entry's share of the nodes takes less than a tenth of an object name.
    fn full(&self) -> bool {
        let share = self.plan.kind.width() / 10;
        let bytes = self.file.bytes.len() + share * self.names.len();
        self.names.len() == self.plan.most_entries || bytes + 1024 > self.plan.most_bytes
    }
}

/// A name of 4 to 16 bytes. Names rise with i, but their lengths do not.
fn directory_name(i: usize) -> Vec<u8> {
    [&letters(i, 4), &b"-cutting-list"[..i * 5 % 13]].concat()
}

/// The subdirectories in rising names, each with the names below it, without its path.
pub fn subdirectories<'a>(names: &[&'a [u8]]) -> Vec<(&'a [u8], Vec<&'a [u8]>)> {
    let mut found: Vec<(&[u8], Vec<&[u8]>)> = Vec::new();
    for name in names {
        let slash = match name.iter().position(|&byte| byte == b'/') {
            Some(slash) => slash,
            None => continue,
        };
        let (directory, below) = (&name[..slash], &name[slash + 1..]);
        match found.last_mut() {
            Some((last, names)) if *last == directory => names.push(below),
            _ => found.push((directory, vec![below])),
        }
    }
    found
}
