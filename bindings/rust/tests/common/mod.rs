//! What the tests share. They may need a later Rust than the crate does.
#![allow(dead_code, clippy::incompatible_msrv)]

use std::path::PathBuf;
use std::sync::{Mutex, MutexGuard};
use std::{env, fs, io, process};

static PROCESS: Mutex<()> = Mutex::new(());

/// A folder that is the current directory, with the process's variables to itself. Those that begin with `D` and a
/// capital letter are gone.
pub struct Folder {
    pub path: PathBuf,
    before: PathBuf,
    _alone: MutexGuard<'static, ()>,
}

impl Folder {
    pub fn new(name: &str) -> Folder {
        let alone = PROCESS
            .lock()
            .unwrap_or_else(|poisoned| poisoned.into_inner());
        let path = env::temp_dir().join(format!("dotenvy-{}-{name}", process::id()));
        fs::create_dir_all(&path).unwrap();
        let path = path.canonicalize().unwrap();
        let before = env::current_dir().unwrap();
        env::set_current_dir(&path).unwrap();
        for (name, _) in env::vars_os() {
            let text = name.to_string_lossy();
            if text.starts_with('D') && text[1..].starts_with(|it: char| it.is_ascii_uppercase()) {
                env::remove_var(name);
            }
        }
        Folder {
            path,
            before,
            _alone: alone,
        }
    }

    pub fn write(&self, name: &str, text: impl AsRef<[u8]>) -> PathBuf {
        let path = self.path.join(name);
        fs::write(&path, text).unwrap();
        path
    }
}

impl Drop for Folder {
    fn drop(&mut self) {
        let _ = env::set_current_dir(&self.before);
        let _ = fs::remove_dir_all(&self.path);
    }
}

pub fn value(name: &str) -> Option<String> {
    env::var(name).ok()
}

/// A reader of these parts, one at each read: bytes, or an error of this kind. Then it ends.
pub struct Parts {
    parts: Vec<Result<Vec<u8>, io::ErrorKind>>,
    /// How many reads there were.
    pub reads: std::rc::Rc<std::cell::Cell<usize>>,
}

impl Parts {
    pub fn new(parts: &[Result<&str, io::ErrorKind>]) -> Parts {
        let parts = parts.iter().rev();
        Parts {
            parts: parts
                .map(|part| part.map(|text| text.as_bytes().to_vec()))
                .collect(),
            reads: Default::default(),
        }
    }

    /// These bytes, in parts of this length.
    pub fn of_length(bytes: &[u8], length: usize) -> Parts {
        let mut parts: Vec<_> = bytes.chunks(length).map(|part| Ok(part.to_vec())).collect();
        parts.reverse();
        Parts {
            parts,
            reads: Default::default(),
        }
    }
}

impl io::Read for Parts {
    fn read(&mut self, buffer: &mut [u8]) -> io::Result<usize> {
        self.reads.set(self.reads.get() + 1);
        match self.parts.pop() {
            None => Ok(0),
            Some(Err(kind)) => Err(kind.into()),
            Some(Ok(part)) => {
                assert!(part.len() <= buffer.len(), "the tests have short parts");
                buffer[..part.len()].copy_from_slice(&part);
                Ok(part.len())
            }
        }
    }
}

/// The items of a reader as text: `NAME=VALUE`, or the error.
pub fn told<R: io::Read>(items: dotenvy::Iter<R>) -> Vec<String> {
    items.take(10_000).map(tell).collect()
}

pub fn tell(item: dotenvy::Result<(String, String)>) -> String {
    match item {
        Ok((key, value)) => format!("{key}={value}"),
        Err(error) => format!("{error:?}"),
    }
}
