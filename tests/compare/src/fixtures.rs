//! Real segments: the files of a folder that have a `.listing` beside them, and most a `.rows` too.

use std::fs;
use std::io;
use std::path::{Path, PathBuf};

/// A file's path, its bytes, its listing, and its entries as Prometheus' decoder gave them.
pub struct Fixture {
    pub path: PathBuf,
    pub bytes: Vec<u8>,
    pub listing: String,
    pub rows: Option<String>,
}

/// The fixtures of a folder, by name.
pub fn read_folder(folder: &Path) -> Result<Vec<Fixture>, String> {
    let fail = |why: io::Error| format!("{}: {why}", folder.display());
    let mut fixtures = Vec::new();
    for entry in fs::read_dir(folder).map_err(fail)? {
        let path = entry.map_err(fail)?.path();
        let listing = PathBuf::from(format!("{}.listing", path.display()));
        let rows = PathBuf::from(format!("{}.rows", path.display()));
        if listing.exists() {
            fixtures.push(Fixture {
                bytes: fs::read(&path).map_err(fail)?,
                listing: fs::read_to_string(&listing).map_err(fail)?,
                rows: rows
                    .exists()
                    .then(|| fs::read_to_string(&rows))
                    .transpose()
                    .map_err(fail)?,
                path,
            });
        }
    }
    if fixtures.is_empty() {
        return Err(format!("{}: no fixtures", folder.display()));
    }
    fixtures.sort_by(|one, other| one.path.cmp(&other.path));
    Ok(fixtures)
}
