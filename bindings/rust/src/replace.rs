//! Reads a file, and replaces it as a whole: whoever reads it sees the old file or the new one, and nothing between.

use crate::library;
use std::fs::{self, File, Metadata, OpenOptions};
use std::io::{self, Read, Write};
use std::os::unix::fs::{MetadataExt, OpenOptionsExt};
use std::path::{Path, PathBuf};
use std::process;
use std::sync::atomic::{AtomicU64, Ordering};

// So that two threads don't try the same names.
static TRIED: AtomicU64 = AtomicU64::new(0);

/// How many names are tried for the file beside.
const TRIES: usize = 1000;

/// A file that was read: where it is, and what it is to the system.
pub struct Old {
    pub bytes: Vec<u8>,
    path: PathBuf,
    state: Metadata,
}

/// A new file beside an old one. It is removed, unless it takes the place of the old one.
struct Beside {
    path: PathBuf,
    file: File,
    is_placed: bool,
}

/// Reads the file at this path. A link is followed to its file.
pub fn read(path: &Path) -> io::Result<Old> {
    let path = fs::canonicalize(path)?;
    // A pipe would wait for a writer.
    check_file(&fs::metadata(&path)?)?;
    let mut file = File::open(&path)?;
    let state = file.metadata()?;
    check_file(&state)?;
    let mut bytes = Vec::new();
    file.read_to_end(&mut bytes)?;
    Ok(Old { bytes, path, state })
}

fn check_file(state: &Metadata) -> io::Result<()> {
    if state.is_file() {
        return Ok(());
    }
    Err(io::Error::new(
        io::ErrorKind::InvalidInput,
        "not a regular file",
    ))
}

impl Old {
    /// Has these bytes in the place of the file, with its owner and its permissions.
    pub fn replace(&self, bytes: &[u8]) -> io::Result<()> {
        let folder = self.path.parent().unwrap_or_else(|| Path::new("/"));
        let mut beside = Beside::new(folder)?;
        beside.keep_state(&self.state)?;
        beside.file.write_all(bytes)?;
        beside.file.sync_all()?;
        beside.place(&self.path)?;
        File::open(folder)?.sync_all()
    }
}

impl Beside {
    // A new file in this folder, under a name that no file has, which only its owner can read.
    fn new(folder: &Path) -> io::Result<Beside> {
        for _ in 0..TRIES {
            let number = TRIED.fetch_add(1, Ordering::Relaxed);
            let path = folder.join(format!(".dotenvy_{}_{}", process::id(), number));
            let mut options = OpenOptions::new();
            match options.write(true).create_new(true).mode(0o600).open(&path) {
                Err(error) if error.kind() == io::ErrorKind::AlreadyExists => {}
                made => {
                    return Ok(Beside {
                        file: made?,
                        path,
                        is_placed: false,
                    })
                }
            }
        }
        Err(io::ErrorKind::AlreadyExists.into())
    }

    fn keep_state(&self, old: &Metadata) -> io::Result<()> {
        let made = self.file.metadata()?;
        if (made.uid(), made.gid()) != (old.uid(), old.gid()) {
            library::change_owner(&self.file, old.uid(), old.gid())?;
        }
        self.file.set_permissions(old.permissions())
    }

    fn place(&mut self, path: &Path) -> io::Result<()> {
        fs::rename(&self.path, path)?;
        self.is_placed = true;
        Ok(())
    }
}

impl Drop for Beside {
    fn drop(&mut self) {
        if !self.is_placed {
            let _ = fs::remove_file(&self.path);
        }
    }
}

#[cfg(test)]
mod tests {
    use super::*;
    use std::env;

    // A folder of its own for a test.
    fn folder(name: &str) -> PathBuf {
        let path = env::temp_dir().join(format!("dotenvy-replace-{}-{name}", process::id()));
        fs::create_dir_all(&path).unwrap();
        path.canonicalize().unwrap()
    }

    fn names(folder: &Path) -> Vec<String> {
        let entries = fs::read_dir(folder).unwrap();
        entries
            .map(|entry| entry.unwrap().file_name().into_string().unwrap())
            .collect()
    }

    #[test]
    fn a_step_that_fails_leaves_nothing() {
        let folder = folder("fails");
        let path = folder.join("a.env");
        fs::write(&path, "A=1\n").unwrap();
        let old = read(&path).unwrap();
        // No file takes the place of a folder.
        fs::remove_file(&path).unwrap();
        fs::create_dir(&path).unwrap();
        assert!(old.replace(b"A=2\n").is_err());
        assert_eq!(names(&folder), ["a.env"]);
        assert!(read(&path).is_err());
        fs::remove_dir_all(folder).unwrap();
    }

    #[test]
    fn a_name_that_is_there_is_not_taken() {
        let folder = folder("there");
        let path = folder.join("a.env");
        fs::write(&path, "A=1\n").unwrap();
        let old = read(&path).unwrap();
        let next = TRIED.load(Ordering::Relaxed);
        let others: Vec<_> = (next..next + 50)
            .map(|number| folder.join(format!(".dotenvy_{}_{}", process::id(), number)))
            .collect();
        for other in &others {
            fs::write(other, "of another").unwrap();
        }
        old.replace(b"A=2\n").unwrap();
        assert_eq!(fs::read(&path).unwrap(), b"A=2\n");
        for other in &others {
            assert_eq!(fs::read(other).unwrap(), b"of another");
        }
        fs::remove_dir_all(folder).unwrap();
    }
}
