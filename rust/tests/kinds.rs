//! The kinds of object names: the names themselves, files that are asked for with another kind, and records with a name
//! of another kind.

mod common;

use std::collections::{BTreeSet, HashSet};
use std::process::Command;
use std::{env, fs, process};

use common::{accepted, number, object, regular, with_checksum, with_zeros, KINDS};
use nerupazhil::raw::{
    CheckReply, EntryReply, StepReply, WriteReply, OBJECT, VERSION_DEFAULT, VERSION_LOWEST,
};
use nerupazhil::{
    calls, check, entry, mode, put, raw, remove, rewrite, sha1, sha256, tree_node, undo_record,
    walk, Checksum, Fields, Index, Kind, ObjectName, Reason, Refusal, Version, WrongLength, EMPTY,
    EMPTY_SHA256, WORKSPACE,
};
use Kind::{Sha1, Sha256};

/// The other of the two kinds.
fn other(kind: Kind) -> Kind {
    match kind {
        Sha1 => Sha256,
        Sha256 => Sha1,
    }
}

// ---- object names

#[test]
fn a_name_knows_its_kind() {
    let (short, long) = ([0x5a; 20], [0x5a; 32]);
    for (name, kind, bytes) in [
        (ObjectName::sha1(short), Sha1, &short[..]),
        (ObjectName::sha256(long), Sha256, &long[..]),
    ] {
        assert_eq!((name.kind(), name.as_bytes()), (kind, bytes));
        assert_eq!((name.as_ref(), name), (bytes, object(kind, 0x5a)));
    }
    assert_eq!(ObjectName::from(short), ObjectName::sha1(short));
    assert_eq!(ObjectName::from(long), ObjectName::sha256(long));
    assert_eq!(ObjectName::default(), ObjectName::zero(Sha1));
    for kind in KINDS {
        assert_eq!(ObjectName::zero(kind).as_bytes(), vec![0; kind.width()]);
    }
}

/// Names of two kinds differ, also where one is the other with zeros after it.
#[test]
fn names_are_plain_values() {
    let names = KINDS.map(ObjectName::zero);
    assert_ne!(names[0], names[1]);
    assert_eq!(HashSet::from(names).len(), 2);
    let rising = [[1; 20], [2; 20]].map(ObjectName::sha1);
    assert!(BTreeSet::from(rising).into_iter().eq(rising));
}

#[test]
fn a_name_is_told_in_hex() {
    let name = ObjectName::try_from(&(0xe0..0xf4).collect::<Vec<u8>>()[..]).unwrap();
    let digits = "e0e1e2e3e4e5e6e7e8e9eaebecedeeeff0f1f2f3";
    assert_eq!(name.to_string(), digits);
    assert_eq!(format!("{name:?}"), format!("ObjectName({digits})"));
    assert_eq!(object(Sha256, 7).to_string(), "07".repeat(32));
}

#[test]
fn other_lengths_are_no_names() {
    for length in (0..64).filter(|length| ![20, 32].contains(length)) {
        let wrong = ObjectName::try_from(&vec![1; length][..]);
        assert_eq!(wrong, Err(WrongLength(length)));
    }
    let words = "21 bytes are no object name, which has 20 or 32";
    assert_eq!(WrongLength(21).to_string(), words);
}

#[test]
fn kinds_hash_as_the_functions_do() {
    assert_eq!(Kind::default(), Sha1);
    assert_eq!(Sha1.hash(b"abc"), sha1(b"abc").into());
    assert_eq!(Sha256.hash(b"abc"), sha256(b"abc").into());
    assert_eq!(KINDS.map(Kind::number), [raw::SHA1, raw::SHA256]);
}

// ---- the index without entries

/// Git writes these bytes in a new repository of the kind.
#[test]
fn git_writes_the_same_empty_index() {
    for (kind, format) in [(Sha1, "sha1"), (Sha256, "sha256")] {
        let folder = env::temp_dir().join(format!("nerupazhil-{format}-{}", process::id()));
        fs::create_dir_all(&folder).unwrap();
        let git = |arguments: &[&str]| {
            let mut command = Command::new("git");
            command
                .env_clear()
                .env("PATH", env::var_os("PATH").unwrap());
            command.env("HOME", &folder).env("GIT_CONFIG_NOSYSTEM", "1");
            let status = command.current_dir(&folder).args(arguments).status();
            assert!(status.unwrap().success(), "{arguments:?}");
        };
        git(&["init", "-q", &format!("--object-format={format}")]);
        git(&["update-index", "--force-write-index"]);
        let written = fs::read(folder.join(".git/index")).unwrap();
        fs::remove_dir_all(&folder).unwrap();
        let index = Index::read_kind(kind, &written).unwrap();
        assert_eq!(
            index.rewritten(Version::Lowest).as_deref(),
            Ok(kind.empty())
        );
        assert_eq!(written, kind.empty());
    }
    assert_eq!(
        (Sha1.empty(), Sha256.empty()),
        (&EMPTY[..], &EMPTY_SHA256[..])
    );
}

// ---- files of the other kind

/// No stored file is sound with both kinds; every call refuses it with the same number and place. It is 1 or 5, but for
/// a file whose checksum was left out.
#[test]
fn a_file_of_the_other_kind_is_refused() {
    let (work, out) = (&mut [0; WORKSPACE], &mut [0; 4096]);
    for vector in accepted() {
        let (kind, file) = (other(vector.kind), &vector.file);
        let refusal = check(kind, file, work).unwrap_err();
        let signed = vector.expected.unwrap().checksum == Checksum::Matches;
        let told = !signed || [1, 5].contains(&refusal.number());
        assert!(told, "{}", vector.name);
        assert_eq!(entry(kind, file, work, 0).err(), Some(refusal));
        assert_eq!(tree_node(kind, file, work, 0).err(), Some(refusal));
        assert_eq!(undo_record(kind, file, work, 0).err(), Some(refusal));
        assert_eq!(walk(kind, file, work).err(), Some(refusal));
        let (version, fields) = (Version::Lowest, regular(kind));
        assert_eq!(rewrite(kind, file, work, out, version).err(), Some(refusal));
        let put = put(kind, file, work, out, version, b"a", &fields);
        assert_eq!(put.err(), Some(refusal));
        let removed = remove(kind, file, work, out, version, b"a", 0);
        assert_eq!(removed.err(), Some(refusal));
        assert_eq!(Index::read_kind(kind, file).err(), Some(refusal));
    }
}

/// An empty index with SHA-1 names is too short for one with SHA-256 names; the other has its checksum elsewhere.
#[test]
fn the_empty_index_of_the_other_kind_is_refused() {
    let work = &mut [0; WORKSPACE];
    assert_eq!(check(Sha256, &EMPTY, work), Err(Refusal::new(1, 0)));
    assert_eq!(check(Sha1, &EMPTY_SHA256, work), Err(Refusal::new(5, 24)));
    assert_eq!(
        check(Sha256, &EMPTY_SHA256[..43], work),
        Err(Refusal::new(1, 0))
    );
    let mut damaged = EMPTY_SHA256;
    damaged[43] ^= 1;
    assert_eq!(check(Sha256, &damaged, work), Err(Refusal::new(5, 12)));
    // With the checksum left out, the first 12 of its 32 zeros are no extension.
    let file = with_zeros(Sha256, &EMPTY_SHA256);
    assert_eq!(check(Sha1, &file, work), Err(Refusal::new(13, 12)));
}

/// A file without a checksum, made so that both kinds read it: with SHA-1 names it has the entries ab and bb and an
/// extension, with SHA-256 names x, which lies in the second ctime, and y, which lies in the extension's data.
fn of_both_kinds() -> Vec<u8> {
    let mode = mode::REGULAR.to_be_bytes();
    let mut file = vec![0; 204];
    for (at, bytes) in [
        (0, &b"DIRC\0\0\0\x02\0\0\0\x02"[..]),
        (36, &mode),
        (72, b"\0\x02ab"),
        (84, b"\0\x01x"),
        (108, &mode),
        (116, &mode),
        (144, b"\0\x02bb"),
        (156, b"SOME\0\0\0\x14\0\x01y"),
    ] {
        file[at..at + bytes.len()].copy_from_slice(bytes);
    }
    file
}

/// So a client has to know the kind: no refusal tells. With its checksum a file is of one kind.
#[test]
fn with_its_checksum_left_out_a_file_may_be_of_both_kinds() {
    let file = of_both_kinds();
    for (kind, expected) in [(Sha1, [&b"ab"[..], b"bb"]), (Sha256, [b"x", b"y"])] {
        let index = Index::read_kind(kind, &file).unwrap();
        assert_eq!(index.summary().checksum, Checksum::LeftOut);
        let names = index.entries().unwrap().map(|entry| entry.name);
        assert!(names.eq(expected));
        let signed = with_checksum(kind, file[..204 - kind.width()].to_vec());
        assert!(Index::read_kind(kind, &signed).is_ok());
        assert_eq!(number(Index::read_kind(other(kind), &signed)), 5);
    }
}

// ---- numbers that are no kind

/// 29 in every call, and nothing else in the reply.
#[test]
fn other_numbers_are_refused() {
    let (work, out, file) = (&mut [0; WORKSPACE], &mut [0xee; 64], &EMPTY[..]);
    for kind in [0, 3, 20, u32::MAX] {
        let (refusal, fields) = (29, regular(Sha1));
        let written = WriteReply {
            refusal,
            ..WriteReply::default()
        };
        let checked = CheckReply {
            refusal,
            ..CheckReply::default()
        };
        assert_eq!(calls::check(kind, file, work), checked);
        let shown = EntryReply {
            refusal,
            ..EntryReply::default()
        };
        assert_eq!(calls::entry(kind, file, work, 0), shown);
        let step = StepReply {
            refusal,
            ..StepReply::default()
        };
        assert_eq!(calls::walk_next(kind, file, 12, 1), step);
        assert_eq!(calls::tree_node(kind, file, work, 0).refusal, 29);
        assert_eq!(calls::undo_record(kind, file, work, 0).refusal, 29);
        assert_eq!(calls::walk_start(kind, file, work).refusal, 29);
        let asked = VERSION_DEFAULT;
        assert_eq!(calls::rewrite(kind, file, work, out, asked), written);
        let put = calls::put(kind, file, work, out, asked, b"a", fields);
        assert_eq!(put, written);
        let removed = calls::remove(kind, file, work, out, asked, b"a", 0);
        assert_eq!(removed, written);
    }
    assert_eq!(*out, [0xee; 64]);
}

// ---- records with a name of the other kind

/// 29, whatever the file; a workspace that is too short comes first. The output stays.
#[test]
fn a_record_of_the_other_kind_is_refused() {
    let (work, out) = (&mut [0; WORKSPACE], &mut [0xee; 256]);
    for kind in KINDS {
        let (version, fields) = (Version::Lowest, regular(other(kind)));
        for file in [kind.empty(), other(kind).empty(), b""] {
            let refusal = put(kind, file, work, out, version, b"a", &fields).unwrap_err();
            assert_eq!((refusal.reason(), refusal.place()), (Reason::Kind, 0));
            let short = put(kind, file, &mut work[1..], out, version, b"a", &fields);
            assert_eq!(number(short), 19);
        }
        let index = Index::read_kind(kind, kind.empty()).unwrap();
        let refused = index.with(b"a", &fields, version);
        assert_eq!(refused, Err(Refusal::new(29, 0)));
    }
    assert_eq!(*out, [0xee; 256]);
}

/// Fields that are only half filled have a SHA-1 name, and are refused in an index with SHA-256 names.
#[test]
fn default_fields_have_a_sha1_name() {
    let fields = Fields {
        mode: mode::REGULAR,
        ..Fields::default()
    };
    let put = |kind: Kind| {
        let index = Index::read_kind(kind, kind.empty()).unwrap();
        number(index.with(b"a", &fields, Version::Lowest))
    };
    assert_eq!(KINDS.map(put), [0, 29]);
}

// ---- the bytes after a SHA-1 name

/// What the library writes for a regular file with these bytes for its object name.
fn put_raw(kind: Kind, object: &[u8; OBJECT]) -> Vec<u8> {
    let (mut work, mut out) = ([0; WORKSPACE], [0; 256]);
    let (mut fields, mut reply) = ([0; 14], [0; 3]);
    fields[6] = mode::REGULAR;
    let (file, name) = (kind.empty(), b"a");
    // SAFETY: the pointers and lengths are those of slices, the others are arrays, and all stand apart.
    unsafe {
        raw::nerupazhil_put(
            kind.number(),
            file.as_ptr(),
            file.len(),
            work.as_mut_ptr(),
            work.len(),
            out.as_mut_ptr(),
            out.len(),
            VERSION_LOWEST,
            name.as_ptr(),
            name.len(),
            &fields,
            object,
            &mut reply,
        )
    };
    assert_eq!(reply[0], 0);
    out[..reply[2] as usize].to_vec()
}

/// The crate writes what the library writes with any bytes there; a SHA-256 name has all 32.
#[test]
fn bytes_after_a_sha1_name_are_not_read() {
    let (mut zeros, mut others) = ([0; OBJECT], [0xee; OBJECT]);
    zeros[..20].fill(0x5a);
    others[..20].fill(0x5a);
    let index = Index::read(&EMPTY).unwrap();
    let written = index.with(b"a", &regular(Sha1), Version::Lowest).unwrap();
    assert_eq!(put_raw(Sha1, &zeros), written);
    assert_eq!(put_raw(Sha1, &others), written);
    assert_ne!(put_raw(Sha256, &zeros), put_raw(Sha256, &others));
}
