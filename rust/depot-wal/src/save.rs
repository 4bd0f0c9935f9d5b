//! A new file: written beside its place, synced, read back, renamed. Whoever looks sees the old one,
//! or none, or the whole new one.

use crate::words::text;
use std::fs::{self, File, OpenOptions};
use std::io::{self, ErrorKind, Read, Write};
use std::path::{Path, PathBuf};

/// What a file is called until it is whole.
fn draft_of(path: &Path) -> PathBuf {
    let mut name = path.as_os_str().to_owned();
    name.push(".new");
    PathBuf::from(name)
}

/// Writes the bytes to a new file, syncs it, reads it back, and only then gives it its name. A draft
/// that is there already is left alone, and refused: somebody else may be at it. Where it fails a
/// sentence says what to do, and nothing is left.
pub fn save(path: &Path, bytes: &[u8]) -> Result<(), String> {
    let draft = draft_of(path);
    let show = |path: &Path| text(path.as_os_str().as_encoded_bytes());
    save_by(&draft, path, bytes).map_err(|error| match error.kind() {
        ErrorKind::AlreadyExists => {
            format!("{} is there from an earlier run; remove it", show(&draft))
        }
        ErrorKind::NotFound => format!("{}: there is no such directory; make it first", show(path)),
        _ => format!(
            "{} cannot be written ({error}); make room there, or choose another place",
            show(path)
        ),
    })
}

fn save_by(draft: &Path, path: &Path, bytes: &[u8]) -> io::Result<()> {
    let mut options = OpenOptions::new();
    let file = options.write(true).create_new(true).open(draft)?;
    let saved = fill(file, draft, bytes).and_then(|()| fs::rename(draft, path));
    if saved.is_err() {
        // What is left of it is of no use to anybody.
        let _ = fs::remove_file(draft);
    }
    saved.and_then(|()| sync_folder(path))
}

fn fill(mut file: File, draft: &Path, bytes: &[u8]) -> io::Result<()> {
    file.write_all(bytes)?;
    file.sync_all()?;
    drop(file);
    let mut back = Vec::with_capacity(bytes.len() + 1);
    File::open(draft)?.read_to_end(&mut back)?;
    match back == bytes {
        true => Ok(()),
        false => Err(io::Error::new(
            ErrorKind::InvalidData,
            "it reads back other than it was written",
        )),
    }
}

/// Makes the name last.
fn sync_folder(path: &Path) -> io::Result<()> {
    let folder = match path.parent() {
        Some(folder) if folder != Path::new("") => folder,
        _ => Path::new("."),
    };
    File::open(folder)?.sync_all()
}
