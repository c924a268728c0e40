//! Files that only their owner reads, and that go again unless all is well.

use std::fs::{self, File, OpenOptions, Permissions};
use std::io::{self, Write};
use std::os::unix::fs::{OpenOptionsExt, PermissionsExt};
use std::path::{Path, PathBuf};

const OWNER_ONLY: u32 = 0o600;

/// A file that was not there before; it is removed when this is dropped.
pub struct NewFile {
    path: PathBuf,
    file: File,
    stays: bool,
}

impl NewFile {
    /// Makes an empty file, or fails where the path has anything already.
    pub fn create(path: &Path) -> io::Result<NewFile> {
        let mut options = OpenOptions::new();
        let file = options
            .write(true)
            .create_new(true)
            .mode(OWNER_ONLY)
            .open(path)?;
        Ok(NewFile {
            path: path.to_path_buf(),
            file,
            stays: false,
        })
    }

    /// Writes all of its bytes through to the disk.
    pub fn fill(&mut self, bytes: &[u8]) -> io::Result<()> {
        // The mode that it was made with may have been narrowed further.
        self.file
            .set_permissions(Permissions::from_mode(OWNER_ONLY))?;
        self.file.write_all(bytes)?;
        self.file.sync_all()
    }

    pub fn stay(mut self) {
        self.stays = true;
    }
}

impl Drop for NewFile {
    fn drop(&mut self) {
        if !self.stays {
            // Nothing more can be done where this fails.
            let _ = fs::remove_file(&self.path);
        }
    }
}
