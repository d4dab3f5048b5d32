//! A set in a file.
use crate::{Refusal, ResumeSet, LONGEST_SET};
use std::error::Error;
use std::fmt;
use std::fs::{self, File};
use std::io::{self, Read, Write};
use std::path::{Path, PathBuf};

impl ResumeSet {
    /// The set that [`save`](ResumeSet::save) left in a file.
    ///
    /// # Errors
    ///
    /// What opening and reading the file fails with: `NotFound` if there is none. A file that is no set, also one that is longer than any
    /// set, is `InvalidData` and has [`Refusal::NotASet`] as its source. (Bytes that were changed to those of another set can't be told.)
    ///
    /// # Starting anew
    ///
    /// Never go on as if the refusal weren't there: a set with too many ids skips transactions. Take in the opening Previous-GTIDs event of
    /// the oldest binlog file that the tool may not have wholly, or begin with the empty set and offer everything that is still there. Both
    /// offer transactions again that the tool has already, so it must recognise their ids.
    ///
    /// A set from the time when the number after [`HIGHEST_GNO`](crate::HIGHEST_GNO) was let in, and that has it, is no set any more. It can
    /// be kept without that id: README.md of the repository says how ("A saved set with the number 2^63-1").
    ///
    /// Nor is a set from the time when one entry could have more than 1,024 intervals, and that has such an entry. It can go on as two sets,
    /// one that is asked and one that events are offered to: README.md says how ("A saved set with more than 1,024 intervals in one entry").
    ///
    /// ```
    /// use gtid_resume::{Refusal, ResumeSet};
    /// use std::error::Error;
    /// use std::io::ErrorKind;
    ///
    /// # let path = std::env::temp_dir().join(format!("gtid-load-{}", std::process::id()));
    /// assert_eq!(ResumeSet::load(&path).unwrap_err().kind(), ErrorKind::NotFound);
    /// std::fs::write(&path, "damaged")?;
    /// let error = ResumeSet::load(&path).unwrap_err();
    /// assert_eq!(error.kind(), ErrorKind::InvalidData);
    /// assert_eq!(error.source().unwrap().downcast_ref(), Some(&Refusal::NotASet));
    /// # std::fs::remove_file(&path)?;
    /// # Ok::<(), std::io::Error>(())
    /// ```
    pub fn load(path: impl AsRef<Path>) -> io::Result<ResumeSet> {
        let path = path.as_ref();
        let mut bytes = Vec::new();
        // a byte more than the longest set has is enough to see that a file is none
        File::open(path)?
            .take(LONGEST_SET as u64 + 1)
            .read_to_end(&mut bytes)?;
        ResumeSet::from_bytes(bytes).map_err(|refusal| damaged(path, refusal))
    }

    /// Saves the set in a file, in place of what stood there. When this returns without an error the set outlasts a crash, of the machine
    /// too; a crash before leaves the old set or the new one, whole.
    ///
    /// The bytes are written to a file beside it, whose name has `.new` at its end, which is then renamed; one that a crash left over does no
    /// harm. So a symbolic link is replaced and not followed, and the file's permissions are those of a new one. Only one follower may save
    /// in a file at a time.
    ///
    /// # Errors
    ///
    /// What writing, syncing or renaming fails with. The old set or the new one stands in the file.
    ///
    /// ```
    /// use gtid_resume::ResumeSet;
    ///
    /// # let path = std::env::temp_dir().join(format!("gtid-save-{}", std::process::id()));
    /// ResumeSet::empty().save(&path)?;
    /// assert_eq!(ResumeSet::load(&path)?, ResumeSet::empty());
    /// # std::fs::remove_file(&path)?;
    /// # Ok::<(), std::io::Error>(())
    /// ```
    pub fn save(&self, path: impl AsRef<Path>) -> io::Result<()> {
        let path = path.as_ref();
        let beside = beside(path)?;
        let mut file = File::create(&beside)?;
        file.write_all(self.as_bytes())?;
        // before the rename, or a crash could leave the new name with no bytes
        file.sync_all()?;
        fs::rename(&beside, path)?;
        sync_folder_of(path)
    }
}

fn beside(path: &Path) -> io::Result<PathBuf> {
    let no_name = || io::Error::new(io::ErrorKind::InvalidInput, "the path names no file");
    let mut name = path.file_name().ok_or_else(no_name)?.to_os_string();
    name.push(".new");
    Ok(path.with_file_name(name))
}

/// A rename outlasts a crash of the machine once its folder is synced.
fn sync_folder_of(path: &Path) -> io::Result<()> {
    let folder = path.parent().filter(|folder| *folder != Path::new(""));
    File::open(folder.unwrap_or_else(|| Path::new(".")))?.sync_all()
}

/// A file that is no set.
#[derive(Debug)]
struct Damaged {
    path: PathBuf,
    refusal: Refusal,
}

fn damaged(path: &Path, refusal: Refusal) -> io::Error {
    let path = path.to_path_buf();
    io::Error::new(io::ErrorKind::InvalidData, Damaged { path, refusal })
}

impl fmt::Display for Damaged {
    fn fmt(&self, f: &mut fmt::Formatter<'_>) -> fmt::Result {
        write!(
            f,
            "{} is no saved set ({}): remove it, and start anew from the oldest binlog file that the tool may not have wholly",
            self.path.display(),
            self.refusal
        )
    }
}

impl Error for Damaged {
    fn source(&self) -> Option<&(dyn Error + 'static)> {
        Some(&self.refusal)
    }
}
