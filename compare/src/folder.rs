//! Temporary folders that a program of the product runs in.

use std::fs;
use std::path::{Path, PathBuf};
use std::sync::atomic::{AtomicU64, Ordering};

static FOLDERS: AtomicU64 = AtomicU64::new(0);

/// A temporary folder, gone when dropped.
pub struct Folder(PathBuf);

impl Folder {
    fn empty() -> Result<Folder, String> {
        let count = FOLDERS.fetch_add(1, Ordering::Relaxed);
        let name = format!("compare-{}-{count}", std::process::id());
        let path = std::env::temp_dir().join(name);
        fs::create_dir(&path).map_err(|error| format!("no temporary folder: {error}"))?;
        Ok(Folder(path))
    }

    /// A folder with this `rack.tab`, or with none.
    pub fn with(table: Option<&[u8]>) -> Result<Folder, String> {
        let folder = Folder::empty()?;
        if let Some(bytes) = table {
            fs::write(folder.table(), bytes).map_err(|error| format!("no rack.tab: {error}"))?;
        }
        Ok(folder)
    }

    /// A folder where `rack.tab` is a folder, which opens but can't be read.
    pub fn with_unreadable_table() -> Result<Folder, String> {
        let folder = Folder::empty()?;
        fs::create_dir(folder.table()).map_err(|error| format!("no rack.tab: {error}"))?;
        Ok(folder)
    }

    pub fn path(&self) -> &Path {
        &self.0
    }

    fn table(&self) -> PathBuf {
        self.0.join("rack.tab")
    }
}

impl Drop for Folder {
    fn drop(&mut self) {
        let _ = fs::remove_dir_all(&self.0);
    }
}
