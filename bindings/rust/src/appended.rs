//! A file to whose end a journal is appended.

use std::fs::{self, File, Metadata};
use std::io;
use std::os::unix::fs::{FileExt, MetadataExt};
use std::path::PathBuf;

/// Returns whether two files that are there are one.
pub(crate) fn is_same(one: &Metadata, other: &Metadata) -> bool {
    (one.dev(), one.ino()) == (other.dev(), other.ino())
}

/// A file that grows by whole pieces, unless the system fails in the midst of one.
#[derive(Debug)]
pub(crate) struct Appended {
    path: PathBuf,
    /// It is open, so that no other file has its number.
    file: File,
    /// The bytes of its whole pieces.
    size: u64,
}

impl Appended {
    /// A file that has whole pieces only.
    pub fn new(path: PathBuf, file: File) -> io::Result<Appended> {
        let size = file.metadata()?.len();
        Ok(Appended { path, file, size })
    }

    pub fn size(&self) -> u64 {
        self.size
    }

    /// Returns whether the file still has its path.
    pub fn is_there(&self) -> io::Result<bool> {
        let own = self.file.metadata()?;
        Ok(fs::metadata(&self.path).is_ok_and(|found| is_same(&own, &found)))
    }

    /// Appends a piece, and waits until it is stored. If that fails, what is there of it is cut off.
    pub fn append(&mut self, piece: &[u8]) -> io::Result<()> {
        // A part of a piece is there if it could not be cut off.
        if self.file.metadata()?.len() != self.size {
            self.file.set_len(self.size)?;
        }
        let written = self.file.write_all_at(piece, self.size);
        if let Err(error) = written.and_then(|()| self.file.sync_data()) {
            let _ = self.file.set_len(self.size);
            return Err(error);
        }
        self.size += piece.len() as u64;
        Ok(())
    }
}
