use crate::dialect::Dialect;
use crate::error::{Error, Result};
use crate::iter::error_of;
use crate::{find, header, library};
use std::collections::{btree_map, BTreeMap};
use std::env::{self, VarError};
use std::fs::File;
use std::io::{self, Read};
use std::path::{Path, PathBuf};
use std::{error, fmt};

/// Which value counts if a variable exists and a file declares it.
#[derive(Clone, Copy, Debug, PartialEq, Eq)]
pub enum Mode {
    /// The variable keeps its value. In the file, the first value of a name counts.
    Keep,
    /// The variable gets the value of the file. There, the last value of a name counts.
    Override,
}

impl Mode {
    fn option(self) -> u32 {
        match self {
            Mode::Keep => 0,
            Mode::Override => header::OVERRIDE,
        }
    }
}

/// A map of variables, to load files into. The process's own variables don't change, so this needs no `unsafe`
/// anywhere.
///
/// ```
/// use dotenvy::{Dialect, EnvMap, LayerError, Mode};
///
/// fn settings() -> Result<EnvMap, LayerError> {
///     let mut settings = EnvMap::from_process();
///     if let Err(error) = settings.add_file(".env", Mode::Keep, Dialect::V15) {
///         if !error.not_found() {
///             return Err(error);
///         }
///     }
///     settings.add(&b"DB_HOST=localhost\nDB=postgres://${DB_HOST}/\n"[..], Mode::Keep, Dialect::V15)?;
///     Ok(settings)
/// }
///
/// let settings = settings()?;
/// assert_eq!(settings.get("DB"), Some("postgres://localhost/"));
/// # Ok::<(), LayerError>(())
/// ```
///
/// Each file is a layer over what the map has, and its values can refer to it. A layer is taken whole or not at all:
/// after an error, nothing of it is in the map.
///
/// Which value counts is proved, in the library that this crate links.
///
/// A program that you start can have the map as its environment:
///
/// ```no_run
/// # let settings = dotenvy::EnvMap::new();
/// std::process::Command::new("./serve").env_clear().envs(&settings).status()?;
/// # Ok::<(), std::io::Error>(())
/// ```
#[derive(Clone, Debug, Default, PartialEq, Eq)]
pub struct EnvMap {
    values: BTreeMap<String, String>,
}

/// Why a layer was not taken.
#[derive(Debug)]
pub struct LayerError {
    error: Error,
    path: Option<PathBuf>,
    line: Option<u64>,
}

impl EnvMap {
    /// A map without variables.
    pub fn new() -> EnvMap {
        EnvMap::default()
    }

    /// A map of the process's variables. Those that aren't text, in name or value, are left out, and those whose names
    /// no file can have a value for, since they begin with `=`.
    pub fn from_process() -> EnvMap {
        let mut map = EnvMap::new();
        for (name, value) in env::vars_os() {
            if let (Ok(name), Ok(value)) = (name.into_string(), value.into_string()) {
                if library::is_name(&name) {
                    map.values.insert(name, value);
                }
            }
        }
        map
    }

    /// Sets a variable.
    ///
    /// ```
    /// let mut settings = dotenvy::EnvMap::new();
    /// settings.set("HOST", "localhost");
    /// assert_eq!(settings.get("HOST"), Some("localhost"));
    /// ```
    ///
    /// # Panics
    ///
    /// If no environment can have it: the name is empty, or has `=` or a NUL, or the value has a NUL.
    pub fn set(&mut self, name: &str, value: &str) {
        assert!(
            library::is_name(name) && !value.contains('\0'),
            "no environment can have the variable {:?} with this value",
            name
        );
        self.values.insert(name.to_owned(), value.to_owned());
    }

    /// The value of a variable.
    pub fn get(&self, name: &str) -> Option<&str> {
        self.values.get(name).map(String::as_str)
    }

    /// The value of a variable, or the error that it isn't there.
    pub fn var(&self, name: &str) -> Result<&str> {
        self.get(name).ok_or(Error::EnvVar(VarError::NotPresent))
    }

    /// How many variables there are.
    pub fn len(&self) -> usize {
        self.values.len()
    }

    /// Whether there are none.
    pub fn is_empty(&self) -> bool {
        self.values.is_empty()
    }

    /// The names and values, ordered by name.
    pub fn iter(&self) -> btree_map::Iter<'_, String, String> {
        self.values.iter()
    }

    /// Adds what this reader gives. A byte order mark at its start is dropped.
    ///
    /// ```
    /// use dotenvy::{Dialect, EnvMap, Mode};
    ///
    /// let mut settings = EnvMap::new();
    /// let added = settings.add(&b"A=1\nB=two words\n"[..], Mode::Keep, Dialect::V15);
    /// assert_eq!(added.unwrap_err().line(), Some(2));
    /// assert!(settings.is_empty());
    /// ```
    pub fn add<R: Read>(
        &mut self,
        reader: R,
        mode: Mode,
        dialect: Dialect,
    ) -> std::result::Result<(), LayerError> {
        self.add_reader(reader, mode, dialect)
            .map_err(|(error, line)| LayerError {
                error,
                path: None,
                line,
            })
    }

    /// Adds the file at this path, which an error names.
    pub fn add_path<P: AsRef<Path>>(
        &mut self,
        path: P,
        mode: Mode,
        dialect: Dialect,
    ) -> std::result::Result<(), LayerError> {
        let path = path.as_ref();
        File::open(path)
            .map_err(|error| (error.into(), None))
            .and_then(|file| self.add_reader(file, mode, dialect))
            .map_err(|(error, line)| LayerError {
                error,
                path: Some(path.to_owned()),
                line,
            })
    }

    /// Adds the file of this name in the current directory, or in the nearest one above that has it, and returns its
    /// path.
    pub fn add_file<P: AsRef<Path>>(
        &mut self,
        filename: P,
        mode: Mode,
        dialect: Dialect,
    ) -> std::result::Result<PathBuf, LayerError> {
        let filename = filename.as_ref();
        let path = find(filename).map_err(|error| LayerError {
            error,
            path: Some(filename.to_owned()),
            line: None,
        })?;
        self.add_path(&path, mode, dialect)?;
        Ok(path)
    }

    fn add_reader<R: Read>(
        &mut self,
        mut reader: R,
        mode: Mode,
        dialect: Dialect,
    ) -> std::result::Result<(), (Error, Option<u64>)> {
        let without_line = |error: io::Error| (error.into(), None);
        library::check_processor().map_err(without_line)?;
        let mut file = Vec::new();
        reader.read_to_end(&mut file).map_err(without_line)?;
        let block = self.block();
        let options = mode.option() | dialect.option();
        let loaded = library::load(&file, &block, options);
        if loaded.status != header::OK {
            let error = error_of(loaded.status, loaded.text().to_owned(), loaded.index);
            return Err((error, stop_line(&file, &block, options)));
        }
        self.values = loaded
            .pairs()
            .map(|(name, value)| (name.to_owned(), value.to_owned()))
            .collect();
        Ok(())
    }

    // The variables as the library takes them.
    fn block(&self) -> Vec<u8> {
        let mut block = Vec::new();
        for (name, value) in &self.values {
            library::push_entry(&mut block, name, value);
        }
        block
    }
}

// The line on which a load stops: that of the first statement with which a load of all up to it has an error. `None` if
// there is none, or if an allocation failed.
fn stop_line(file: &[u8], block: &[u8], options: u32) -> Option<u64> {
    let statements = library::places(file, header::DROP_MARK)?;
    let mut has_memory = true;
    let stop = statements.partition_point(|statement| {
        let status = library::load(&file[..statement.place.end], block, options).status;
        has_memory &= status != header::NO_MEMORY;
        status == header::OK
    });
    let stop = statements.get(stop).filter(|_| has_memory);
    stop.map(|statement| statement.first_line)
}

impl<'a> IntoIterator for &'a EnvMap {
    type Item = (&'a String, &'a String);
    type IntoIter = btree_map::Iter<'a, String, String>;

    fn into_iter(self) -> btree_map::Iter<'a, String, String> {
        self.values.iter()
    }
}

impl IntoIterator for EnvMap {
    type Item = (String, String);
    type IntoIter = btree_map::IntoIter<String, String>;

    fn into_iter(self) -> btree_map::IntoIter<String, String> {
        self.values.into_iter()
    }
}

impl LayerError {
    /// What is wrong.
    pub fn error(&self) -> &Error {
        &self.error
    }

    /// The file, if it has a name.
    pub fn path(&self) -> Option<&Path> {
        self.path.as_deref()
    }

    /// The line on which the error begins, counted from 1; or `None`, if it isn't one of a line.
    pub fn line(&self) -> Option<u64> {
        self.line
    }

    /// Whether a file was not found.
    pub fn not_found(&self) -> bool {
        self.error.not_found()
    }
}

impl fmt::Display for LayerError {
    fn fmt(&self, f: &mut fmt::Formatter<'_>) -> fmt::Result {
        if let Some(path) = &self.path {
            write!(f, "{}:", path.display())?;
        }
        if let Some(line) = self.line {
            write!(f, "{}:", line)?;
        }
        if self.path.is_some() || self.line.is_some() {
            f.write_str(" ")?;
        }
        self.error.fmt(f)
    }
}

impl error::Error for LayerError {
    fn source(&self) -> Option<&(dyn error::Error + 'static)> {
        Some(&self.error)
    }
}

impl From<LayerError> for Error {
    fn from(error: LayerError) -> Error {
        error.error
    }
}
