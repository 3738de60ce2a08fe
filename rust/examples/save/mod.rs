//! Saves an index so that a reader, and the disk after a loss of power, has the old one or the new one whole: never a
//! part. Copy this folder into a program that writes indexes. For Unix; it stands on nothing but the crate.
//!
//! The new index is first written to INDEX.lock beside it. That is also Git's own lock: while the file is there, Git
//! and other users of this code do not change the index.
//!
//! A program that is killed, and a device that loses its power, leaves the file behind, as Git does, and nothing removes
//! it by itself: each save stops with `Locked` for as long as it is there. A client that is the only one to change the
//! index on its device removes it when it starts, before its first save, and tells its user that the last save was not
//! finished. Elsewhere a person removes it, once no other program is at work. What stands in it is of no use: the index
//! beside it is whole.

mod load;

use std::error::Error;
use std::ffi::OsString;
use std::fmt;
use std::fs::{self, File, OpenOptions};
use std::io::{self, Write};
use std::os::unix::fs::OpenOptionsExt;
use std::path::{Path, PathBuf};

use nerupazhil::{check, Checksum, Kind, Refusal, WORKSPACE};

/// Replaces an index, which has to be there, by what a change makes of its bytes.
pub fn edit<F>(index: &Path, change: F) -> Result<(), SaveError>
where
    F: FnOnce(&[u8]) -> Result<Vec<u8>, Refusal>,
{
    let place = Place::find(index)?;
    let (file, mut lock) = place.lock()?;
    // Under the lock from here on, else a change that another program makes after our read would be lost.
    let result = place.replace(file, &mut lock, change);
    result.map_err(|error| match lock.remove() {
        Ok(()) => error,
        Err(_) => SaveError::LockLeft(Box::new(error), place.lock_path()),
    })
}

/// Where the index is.
struct Place {
    index: PathBuf,
    folder: File,
}

impl Place {
    fn find(index: &Path) -> Result<Self, SaveError> {
        // A link is followed: renaming over it would leave the file behind it as it was.
        let index = fs::canonicalize(index).map_err(failed("find the index"))?;
        // Before anything changes, so that after the rename only its sync can fail.
        let folder = File::open(index.parent().unwrap_or(&index))
            .map_err(failed("open the folder of the index"))?;
        Ok(Self { index, folder })
    }

    fn lock_path(&self) -> PathBuf {
        let mut path = OsString::from(&self.index);
        path.push(".lock");
        PathBuf::from(path)
    }

    /// Of several programs that try, one creates the file. No other user can read it before it has its mode.
    fn lock(&self) -> Result<(File, Lock), SaveError> {
        let path = self.lock_path();
        let created = OpenOptions::new()
            .write(true)
            .create_new(true)
            .mode(0o600)
            .open(&path);
        match created {
            Ok(file) => Ok((file, Lock { path, ours: true })),
            Err(error) if error.kind() == io::ErrorKind::AlreadyExists => {
                Err(SaveError::Locked(path))
            }
            Err(error) => Err(failed("create the lock")(error)),
        }
    }

    fn replace<F>(&self, file: File, lock: &mut Lock, change: F) -> Result<(), SaveError>
    where
        F: FnOnce(&[u8]) -> Result<Vec<u8>, Refusal>,
    {
        let old = load::load(&self.index).map_err(failed("read the index"))?;
        let new = change(&old).map_err(SaveError::Refused)?;
        // Whatever made these bytes: what is no sound index does not replace one. The library writes a checksum, so one
        // that was left out is a sign of bytes that were lost.
        let summary =
            check(Kind::Sha1, &new, &mut [0; WORKSPACE]).map_err(SaveError::NewRefused)?;
        if summary.checksum == Checksum::LeftOut {
            return Err(SaveError::NewUnguarded);
        }
        self.write(file, &new)?;
        lock.rename(&self.index)
            .map_err(failed("rename the new index"))?;
        // Until the folder is synced, a loss of power can undo the rename.
        self.folder.sync_all().map_err(SaveError::Unsure)
    }

    /// Writes the new index to the lock and closes it.
    fn write(&self, mut file: File, new: &[u8]) -> Result<(), SaveError> {
        // The new file has the permission bits of the old one, whatever the umask says.
        fs::metadata(&self.index)
            .and_then(|old| file.set_permissions(old.permissions()))
            .map_err(failed("keep the permission bits of the index"))?;
        file.write_all(new).map_err(failed("write the new index"))?;
        // The bytes are on the disk before the name leads to them: else a loss of power after the rename could leave
        // an empty or a cut index. It also tells of errors that come late, which Rust does not when it closes a file.
        file.sync_all().map_err(failed("sync the new index"))
    }
}

/// The lock that we hold. It is removed also where a change panics.
struct Lock {
    path: PathBuf,
    ours: bool,
}

impl Lock {
    /// A rename is made whole or not at all. It gives back the lock, too.
    fn rename(&mut self, index: &Path) -> io::Result<()> {
        fs::rename(&self.path, index)?;
        // A file of this name is now another program's.
        self.ours = false;
        Ok(())
    }

    fn remove(&mut self) -> io::Result<()> {
        match std::mem::take(&mut self.ours) {
            true => fs::remove_file(&self.path),
            false => Ok(()),
        }
    }
}

impl Drop for Lock {
    fn drop(&mut self) {
        // The panic is what is told.
        let _ = self.remove();
    }
}

/// Why an index was not saved. It is as it was but for `Unsure`.
#[derive(Debug)]
pub enum SaveError {
    /// The lock is there already.
    Locked(PathBuf),
    /// The old bytes, or the change.
    Refused(Refusal),
    /// The new bytes are no sound index.
    NewRefused(Refusal),
    /// The new bytes are an index without a checksum.
    NewUnguarded,
    /// What could not be done, and why.
    Failed(&'static str, io::Error),
    /// The new index is in place, but a loss of power may bring back the old one.
    Unsure(io::Error),
    /// What happened, and then the lock could not be removed.
    LockLeft(Box<SaveError>, PathBuf),
}

fn failed(step: &'static str) -> impl Fn(io::Error) -> SaveError {
    move |error| SaveError::Failed(step, error)
}

impl fmt::Display for SaveError {
    fn fmt(&self, f: &mut fmt::Formatter<'_>) -> fmt::Result {
        match self {
            Self::Locked(lock) => write!(
                f,
                "not changed: {} exists: another program is at work, or one ended in a save; \
                 if none is at work, remove that file and try again",
                lock.display()
            ),
            Self::Refused(refusal) => refusal.fmt(f),
            Self::NewRefused(refusal) => write!(f, "not changed: the new index is {refusal}"),
            Self::NewUnguarded => {
                write!(f, "not changed: the checksum of the new index was left out")
            }
            Self::Failed(step, error) => write!(f, "not changed: cannot {step}: {error}"),
            Self::Unsure(error) => write!(
                f,
                "changed, but a loss of power may undo that: \
                 cannot sync the folder of the index: {error}"
            ),
            Self::LockLeft(error, lock) => write!(f, "{error}; {} is left behind", lock.display()),
        }
    }
}

impl Error for SaveError {}
