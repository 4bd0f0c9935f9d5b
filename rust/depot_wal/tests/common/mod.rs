//! What the tests share: numbers that are the same in every run, and a folder of their own.

#![allow(dead_code)]

use std::path::{Path, PathBuf};
use std::{fs, io};

/// SplitMix64.
pub struct Rng(pub u64);

impl Rng {
    pub fn next(&mut self) -> u64 {
        self.0 = self.0.wrapping_add(0x9E37_79B9_7F4A_7C15);
        let mut z = self.0;
        z = (z ^ (z >> 30)).wrapping_mul(0xBF58_476D_1CE4_E5B9);
        z = (z ^ (z >> 27)).wrapping_mul(0x94D0_49BB_1331_11EB);
        z ^ (z >> 31)
    }

    /// A number below the limit, which is not 0.
    pub fn below(&mut self, limit: usize) -> usize {
        (self.next() % limit as u64) as usize
    }

    /// A number from the first to the last, both included.
    pub fn between(&mut self, first: usize, last: usize) -> usize {
        first + self.below(last - first + 1)
    }

    pub fn bytes(&mut self, length: usize) -> Vec<u8> {
        (0..length).map(|_| self.next() as u8).collect()
    }
}

/// A folder that is removed with this.
pub struct Folder(pub PathBuf);

impl Folder {
    /// On the disk of the build.
    pub fn on_disk(name: &str) -> Folder {
        let place = Path::new(env!("CARGO_TARGET_TMPDIR"));
        Folder::within(place, name).expect("a new folder for the test")
    }

    /// In memory, where there is such a file system, which may be small: for files that are
    /// written often and do not have to last.
    pub fn in_memory(name: &str) -> Folder {
        Folder::within(Path::new("/dev/shm"), name).unwrap_or_else(|_| Folder::on_disk(name))
    }

    fn within(place: &Path, name: &str) -> io::Result<Folder> {
        let folder = place.join(format!("depot_wal-{name}-{}", std::process::id()));
        // Of an earlier process with this number.
        let _ = fs::remove_dir_all(&folder);
        fs::create_dir(&folder)?;
        Ok(Folder(folder))
    }

    pub fn file(&self, name: &str) -> PathBuf {
        self.0.join(name)
    }
}

impl Drop for Folder {
    fn drop(&mut self) {
        let _ = fs::remove_dir_all(&self.0);
    }
}

/// How often something is done: so often, or as many times more as DEPOT_WAL_TEST_TIMES says.
pub fn times(usual: usize) -> usize {
    let times = std::env::var("DEPOT_WAL_TEST_TIMES").ok();
    usual * times.and_then(|times| times.parse().ok()).unwrap_or(1)
}
