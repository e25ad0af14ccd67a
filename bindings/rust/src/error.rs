use std::{env, error, fmt, io};

/// The result of a call of this crate.
pub type Result<T> = std::result::Result<T, Error>;

/// Why a call failed.
#[derive(Debug)]
#[non_exhaustive]
pub enum Error {
    /// A line of the file is wrong: the text at fault, and the place in it where a reader has to give up, counted from
    /// 0. docs/GRAMMAR.md, "Faults and their places", says which text that is.
    LineParse(String, usize),
    /// A file or a reader failed. It is of kind `InvalidData` for a line that is not UTF-8, of kind `NotFound` where no
    /// file was found, and of kind `Unsupported` on a processor below x86-64-v2, for which the library has no code.
    Io(io::Error),
    /// A variable is not set, or is no text.
    EnvVar(env::VarError),
    /// The value of this key was to be set and has a NUL, which no environment can hold.
    Nul(String),
}

impl Error {
    /// Whether a file was not found. Callers often ignore this error, since the file may be optional.
    pub fn not_found(&self) -> bool {
        matches!(self, Error::Io(error) if error.kind() == io::ErrorKind::NotFound)
    }
}

impl fmt::Display for Error {
    fn fmt(&self, f: &mut fmt::Formatter<'_>) -> fmt::Result {
        match self {
            Error::LineParse(line, index) => {
                write!(
                    f,
                    "Error parsing line: '{}', error at line index: {}",
                    line, index
                )
            }
            Error::Io(error) => error.fmt(f),
            Error::EnvVar(error) => error.fmt(f),
            Error::Nul(key) => write!(f, "value of '{}' contains a NUL", key),
        }
    }
}

impl error::Error for Error {
    fn source(&self) -> Option<&(dyn error::Error + 'static)> {
        match self {
            Error::Io(error) => Some(error),
            Error::EnvVar(error) => Some(error),
            Error::LineParse(..) | Error::Nul(_) => None,
        }
    }
}

impl From<io::Error> for Error {
    fn from(error: io::Error) -> Error {
        Error::Io(error)
    }
}
