//! Reads and edits environment files (`.env`) by a proved library.
//!
//! ```no_run
//! // A variable that exists wins, and a service needs no .env.
//! if let Err(error) = dotenvy::dotenv() {
//!     assert!(error.not_found(), ".env: {}", error);
//! }
//! let host = std::env::var("HOST");
//! ```
//!
//! The calls have the names and the results of the crate `dotenvy` 0.15, and files mean what they mean there: a program
//! that uses that crate can use this one, and needs no other change. What differs:
//!
//! - A value with a NUL that would be set is [`Error::Nul`], where that crate panics.
//! - A read that is interrupted is made again, also before the first line of a load.
//! - A byte order mark that comes in several reads is dropped, too.
//! - Where a reader says that it ends, so does a line that a quote, a backslash or a single blank leaves open. That
//!   crate reads once more, and goes on if more comes.
//! - In a statement of more than 8,192 bytes, a read asks for as many bytes as it has so far.
//!
//! What is new here:
//!
//! - [`EnvMap`] loads files into a map, and leaves the process's variables alone.
//! - [`Iter::first_line`] and [`LayerError::line`] have the line of an error.
//! - [`Dialect::Next`] is a second dialect, in which `"$A_B"` means the variable `A_B`.
//! - [`edit`] changes one key of a file, and keeps every other byte.
//!
//! What is proved is how a file is parsed, and for [`EnvMap`] also which value counts, in the library that this crate
//! links ([`library_version`]). Searching, reading and setting the process's variables is done here, in ordinary Rust.
//!
//! Setting variables while other threads read them is as unsafe as it is with `std::env::set_var`: load before you
//! start threads, or load into an [`EnvMap`].

mod ahead;
mod dialect;
pub mod edit;
mod env_map;
mod error;
mod header;
mod iter;
mod library;
mod replace;
mod settled;

pub use dialect::Dialect;
pub use env_map::{EnvMap, LayerError, Mode};
pub use error::{Error, Result};
pub use iter::Iter;

use std::env::{self, Vars};
use std::ffi::OsStr;
use std::fs::{self, File};
use std::io::{self, Read};
use std::path::{Path, PathBuf};
use std::sync::Once;

/// The version of the proved library that this crate links, such as `1.0.0`. This crate's own number is that of the
/// crate `dotenvy` whose calls it has.
///
/// ```
/// assert!(dotenvy::library_version().starts_with("1."));
/// ```
pub fn library_version() -> String {
    let version = library::version();
    let (major, minor, patch) = (version / 1_000_000, version / 1000 % 1000, version % 1000);
    format!("{}.{}.{}", major, minor, patch)
}

static LOAD: Once = Once::new();

// Loads `.env` at the first use. Whatever comes of it, it is not tried again.
fn load_once() {
    LOAD.call_once(|| {
        let _ = dotenv();
    });
}

/// The value of a variable. The first use of `var` or `vars` loads `.env`, if there is one.
///
/// ```
/// let home = dotenvy::var("HOME").unwrap_or_else(|_| "/".to_owned());
/// # assert!(!home.is_empty());
/// ```
pub fn var<K: AsRef<OsStr>>(key: K) -> Result<String> {
    load_once();
    env::var(key).map_err(Error::EnvVar)
}

/// All variables. The first use of `var` or `vars` loads `.env`, if there is one.
pub fn vars() -> Vars {
    load_once();
    env::vars()
}

/// Loads the file at this path: a variable that exists keeps its value. It stops at the first error, and what is before
/// it is set.
///
/// ```no_run
/// dotenvy::from_path("/etc/service.env")?;
/// let host = std::env::var("HOST");
/// # Ok::<(), dotenvy::Error>(())
/// ```
pub fn from_path<P: AsRef<Path>>(path: P) -> Result<()> {
    from_path_iter(path)?.load()
}

/// As [`from_path`], but a variable that exists gets the value that the file gives it.
pub fn from_path_override<P: AsRef<Path>>(path: P) -> Result<()> {
    from_path_iter(path)?.load_override()
}

/// The items of the file at this path. Nothing is set.
pub fn from_path_iter<P: AsRef<Path>>(path: P) -> Result<Iter<File>> {
    Ok(Iter::new(File::open(path)?))
}

/// Loads the file of this name in the current directory, or in the nearest one above that has it, and returns its path.
///
/// ```no_run
/// let path = dotenvy::from_filename("service.env")?;
/// println!("loaded {}", path.display());
/// # Ok::<(), dotenvy::Error>(())
/// ```
pub fn from_filename<P: AsRef<Path>>(filename: P) -> Result<PathBuf> {
    let path = find(filename.as_ref())?;
    from_path(&path)?;
    Ok(path)
}

/// As [`from_filename`], but a variable that exists gets the value that the file gives it.
pub fn from_filename_override<P: AsRef<Path>>(filename: P) -> Result<PathBuf> {
    let path = find(filename.as_ref())?;
    from_path_override(&path)?;
    Ok(path)
}

/// The items of the file that [`from_filename`] finds. Nothing is set.
pub fn from_filename_iter<P: AsRef<Path>>(filename: P) -> Result<Iter<File>> {
    from_path_iter(find(filename.as_ref())?)
}

/// Loads what this reader gives: a variable that exists keeps its value. It stops at the first error, and what is
/// before it is set.
///
/// ```
/// std::env::set_var("PORT", "9090");
/// dotenvy::from_read(&b"PORT=8080\nURL=http://localhost:$PORT\n"[..])?;
/// assert_eq!(std::env::var("URL").as_deref(), Ok("http://localhost:9090"));
/// # Ok::<(), dotenvy::Error>(())
/// ```
pub fn from_read<R: Read>(reader: R) -> Result<()> {
    Iter::new(reader).load()
}

/// As [`from_read`], but a variable that exists gets the value that the file gives it.
///
/// ```
/// std::env::set_var("PORT", "9090");
/// dotenvy::from_read_override(&b"PORT=8080\n"[..])?;
/// assert_eq!(std::env::var("PORT").as_deref(), Ok("8080"));
/// # Ok::<(), dotenvy::Error>(())
/// ```
pub fn from_read_override<R: Read>(reader: R) -> Result<()> {
    Iter::new(reader).load_override()
}

/// The items of what this reader gives. Nothing is set.
///
/// ```
/// let items = dotenvy::from_read_iter(&b"A=1\nB=${A}0\n"[..]);
/// let pairs: dotenvy::Result<Vec<(String, String)>> = items.collect();
/// assert_eq!(pairs.unwrap()[1], ("B".to_owned(), "10".to_owned()));
/// ```
pub fn from_read_iter<R: Read>(reader: R) -> Iter<R> {
    Iter::new(reader)
}

/// Loads `.env` of the current directory, or of the nearest one above that has it, and returns its path.
///
/// ```no_run
/// match dotenvy::dotenv() {
///     Ok(path) => println!("loaded {}", path.display()),
///     Err(error) if error.not_found() => {}
///     Err(error) => return Err(error),
/// }
/// # Ok::<(), dotenvy::Error>(())
/// ```
pub fn dotenv() -> Result<PathBuf> {
    from_filename(".env")
}

/// As [`dotenv`], but a variable that exists gets the value that the file gives it.
pub fn dotenv_override() -> Result<PathBuf> {
    from_filename_override(".env")
}

/// The items of `.env`. Nothing is set.
pub fn dotenv_iter() -> Result<Iter<File>> {
    from_filename_iter(".env")
}

// The path of the file of this name in the current directory, or in the nearest one above that has it.
fn find(filename: &Path) -> Result<PathBuf> {
    for directory in env::current_dir()?.ancestors() {
        let path = directory.join(filename);
        match fs::metadata(&path) {
            Ok(found) if found.is_file() => return Ok(path),
            Err(error) if error.kind() != io::ErrorKind::NotFound => return Err(error.into()),
            _ => {}
        }
    }
    Err(io::Error::new(io::ErrorKind::NotFound, "path not found").into())
}
