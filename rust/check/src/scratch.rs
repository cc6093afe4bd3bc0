//! Files that a test needs for a while.

use std::fs;
use std::io;
use std::path::{Path, PathBuf};
use std::sync::atomic::{AtomicUsize, Ordering};

/// A file that is removed when it is no longer needed.
pub struct Scratch(PathBuf);

impl Scratch {
    /// A path at which nothing is yet.
    pub fn path() -> Scratch {
        static MADE: AtomicUsize = AtomicUsize::new(0);
        let name = format!("phayaklit-{}-{}", std::process::id(), MADE.fetch_add(1, Ordering::Relaxed));
        Scratch(std::env::temp_dir().join(name))
    }

    pub fn file(text: &[u8]) -> io::Result<Scratch> {
        let scratch = Scratch::path();
        fs::write(&scratch.0, text)?;
        Ok(scratch)
    }

    pub fn as_path(&self) -> &Path {
        &self.0
    }
}

impl Drop for Scratch {
    fn drop(&mut self) {
        let _ = fs::remove_file(&self.0);
    }
}
