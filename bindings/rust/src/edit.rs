//! Edits of files: one key changes, and every other byte stays, comments too.
//!
//! ```
//! use dotenvy::edit::{self, How};
//!
//! let file = b"# where it listens\nexport PORT = 80   # behind the proxy\n";
//! let edited = edit::set(file, "PORT", "8080", How::default())?;
//! assert_eq!(edited.bytes, b"# where it listens\nexport PORT = 8080   # behind the proxy\n");
//! # Ok::<(), edit::Error>(())
//! ```
//!
//! What an edit makes of the bytes is proved, in the library that this crate links. That a file is replaced as a whole
//! is done here, in ordinary Rust.

use crate::header;
use crate::library::{self, Edited as Found, Note};
use crate::replace;
use std::path::Path;
use std::{error, fmt, io};

pub use crate::dialect::Dialect;

/// How a key is set.
#[derive(Clone, Copy, Debug, Default, PartialEq, Eq)]
pub struct How {
    /// The dialect of the file.
    pub dialect: Dialect,
    /// Whether the libraries of Python, Node and Ruby have to read the value, too. Some values can't be written so.
    pub portable: bool,
}

/// A file that was edited.
#[derive(Clone, Debug, PartialEq, Eq)]
pub struct Edited {
    /// The new bytes of the file.
    pub bytes: Vec<u8>,
    /// What else is to be known of the edit.
    pub warnings: Vec<Warning>,
}

/// Something to know of an edit that was made. Lines are counted from 1, as they were before it.
#[derive(Clone, Debug, PartialEq, Eq)]
#[non_exhaustive]
pub enum Warning {
    /// A value mentions the key, directly or through other names.
    Mentions {
        /// The name of that value.
        name: String,
        /// The line that declares it.
        line: u64,
    },
    /// A load stops before it comes to the key.
    StopsBefore {
        /// The line at which it stops.
        line: u64,
    },
    /// Lines went: a later one of the key, or those of a value with a fault.
    Removed {
        /// The first of them.
        first: u64,
        /// The last of them.
        last: u64,
    },
    /// The value has a dollar before a name or a brace. It is text in the file.
    Dollar,
}

/// Why no form of a value, or no line, is read alike by the libraries of Python, Node and Ruby.
#[derive(Clone, Copy, Debug, PartialEq, Eq)]
#[non_exhaustive]
pub enum Unportable {
    /// The file begins with a byte order mark.
    Mark,
    /// The value has a carriage return.
    CarriageReturn,
    /// The value has a single quote, and a double quote, a dollar or a backslash.
    Apostrophe,
    /// The value has a line feed, and a double quote, a dollar or a backslash.
    LineFeed,
    /// The value has two backslashes in a row.
    Backslashes,
    /// The value ends with a backslash.
    LastBackslash,
    /// The value has `${` and a later `}`.
    Substitution,
    /// The line has white space other than spaces around the name or after the value, or a carriage return alone ends
    /// it.
    WhiteSpace,
    /// The comment of the line has the quotes that the value needs.
    Comment,
}

/// Why an edit is refused.
#[derive(Clone, Copy, Debug, PartialEq, Eq)]
#[non_exhaustive]
pub enum Reason {
    /// The name can be no key.
    NoKey,
    /// The value has a NUL, which no environment can hold.
    Nul,
    /// No line assigns the key that is to be unset.
    Absent,
    /// A quote stays open to the end of the file, so nothing can be appended.
    QuoteOpen,
    /// The file ends after a backslash or a single blank, so nothing can be appended. End it with a line feed.
    EndOpen,
    /// No line assigns the key, and one that begins with it stays open, or is not UTF-8.
    Unreadable,
    /// A comment goes on over several lines, and it would be cut, or go.
    LongComment,
    /// There is no portable form.
    Unportable(Unportable),
}

/// Why there is no edited file. The old one is as it was.
#[derive(Debug)]
#[non_exhaustive]
pub enum Error {
    /// The edit is refused.
    Refused {
        /// Why.
        reason: Reason,
        /// The physical line at fault, counted from 1; 0 if it is of none.
        line: u64,
    },
    /// A file can't be read or replaced. It is of kind `OutOfMemory` where the library got no memory, and of kind
    /// `Unsupported` on a processor below x86-64-v2, for which it has no code.
    Io(io::Error),
}

impl fmt::Display for Reason {
    fn fmt(&self, f: &mut fmt::Formatter<'_>) -> fmt::Result {
        f.write_str(match self {
            Reason::NoKey => "this can't be a name",
            Reason::Nul => "the value has a NUL",
            Reason::Absent => "the name is not in this file",
            Reason::QuoteOpen => "an open end, so nothing can be appended",
            Reason::EndOpen => "an open end, so nothing can be appended; end it with a line feed",
            Reason::Unreadable => "this line of the name has an open end, or isn't UTF-8",
            Reason::LongComment => "the comment runs over several lines, and would be cut, or go",
            Reason::Unportable(reason) => return reason.fmt(f),
        })
    }
}

impl fmt::Display for Unportable {
    fn fmt(&self, f: &mut fmt::Formatter<'_>) -> fmt::Result {
        let what = match self {
            Unportable::Mark => return f.write_str("a byte order mark is not portable"),
            Unportable::WhiteSpace => {
                return f.write_str("white space other than spaces is not portable")
            }
            Unportable::Comment => {
                return f.write_str("the comment has the quotes of a portable value")
            }
            Unportable::CarriageReturn => "a carriage return",
            Unportable::Apostrophe => "a single quote, and a double quote, a dollar or a backslash",
            Unportable::LineFeed => "a line feed, and a double quote, a dollar or a backslash",
            Unportable::Backslashes => "two backslashes in a row",
            Unportable::LastBackslash => "a backslash at its end",
            Unportable::Substitution => "a dollar and braces",
        };
        write!(f, "the value has no portable form, since it has {}", what)
    }
}

impl fmt::Display for Error {
    fn fmt(&self, f: &mut fmt::Formatter<'_>) -> fmt::Result {
        match self {
            Error::Refused { reason, line: 0 } => reason.fmt(f),
            Error::Refused { reason, line } => write!(f, "line {}: {}", line, reason),
            Error::Io(error) => error.fmt(f),
        }
    }
}

impl error::Error for Error {
    fn source(&self) -> Option<&(dyn error::Error + 'static)> {
        match self {
            Error::Refused { .. } => None,
            Error::Io(error) => Some(error),
        }
    }
}

impl From<io::Error> for Error {
    fn from(error: io::Error) -> Error {
        Error::Io(error)
    }
}

/// Sets a key of a file to a value: the first line that assigns it has the value, and later ones are gone. Where no
/// line does, one is appended.
///
/// The value is text: it reads back as it is, in quotes where it needs them, and no name in it is substituted.
pub fn set(file: &[u8], key: &str, value: &str, how: How) -> Result<Edited, Error> {
    library::check_processor()?;
    let portable = if how.portable { header::PORTABLE } else { 0 };
    let options = how.dialect.option() | portable;
    outcome(library::set(
        file,
        key.as_bytes(),
        value.as_bytes(),
        options,
    ))
}

/// Unsets a key of a file: the lines that assign it are gone, with their comments. One empty line is left where the
/// file would else begin with a byte order mark that it had not.
///
/// ```
/// use dotenvy::edit::{self, Dialect};
///
/// let edited = edit::unset(b"A=1\nB=2\n", "A", Dialect::V15)?;
/// assert_eq!(edited.bytes, b"B=2\n");
/// # Ok::<(), edit::Error>(())
/// ```
pub fn unset(file: &[u8], key: &str, dialect: Dialect) -> Result<Edited, Error> {
    library::check_processor()?;
    outcome(library::unset(file, key.as_bytes(), dialect.option()))
}

/// As [`set`], of the file at this path, which has to be there. A link is followed to its file.
///
/// The file is replaced as a whole: whoever reads it sees the old one or the new one. Its owner and its permissions
/// stay. Where nothing changes, no file is written. Where a step fails, the old file is as it was, and nothing is left
/// beside it; only where the last one fails, to sync the folder, the new file is there.
///
/// ```no_run
/// use dotenvy::edit::{self, How};
///
/// for warning in edit::set_in_file("service.env", "PORT", "8080", How::default())? {
///     eprintln!("{:?}", warning);
/// }
/// # Ok::<(), edit::Error>(())
/// ```
pub fn set_in_file<P: AsRef<Path>>(
    path: P,
    key: &str,
    value: &str,
    how: How,
) -> Result<Vec<Warning>, Error> {
    edit_file(path.as_ref(), |file| set(file, key, value, how))
}

/// As [`unset`], of the file at this path, which is replaced as by [`set_in_file`].
pub fn unset_in_file<P: AsRef<Path>>(
    path: P,
    key: &str,
    dialect: Dialect,
) -> Result<Vec<Warning>, Error> {
    edit_file(path.as_ref(), |file| unset(file, key, dialect))
}

fn edit_file(
    path: &Path,
    edit: impl FnOnce(&[u8]) -> Result<Edited, Error>,
) -> Result<Vec<Warning>, Error> {
    let old = replace::read(path)?;
    let edited = edit(&old.bytes)?;
    if edited.bytes != old.bytes {
        old.replace(&edited.bytes)?;
    }
    Ok(edited.warnings)
}

fn outcome(found: Found) -> Result<Edited, Error> {
    match found.status {
        header::OK => Ok(Edited {
            bytes: found.file,
            warnings: found.notes.into_iter().map(warning_of).collect(),
        }),
        header::NO_MEMORY => Err(Error::Io(io::ErrorKind::OutOfMemory.into())),
        status => Err(Error::Refused {
            reason: reason_of(status),
            line: found.line,
        }),
    }
}

fn reason_of(status: u32) -> Reason {
    match status {
        header::NO_KEY => Reason::NoKey,
        header::NUL => Reason::Nul,
        header::ABSENT => Reason::Absent,
        header::QUOTE_OPEN => Reason::QuoteOpen,
        header::END_OPEN => Reason::EndOpen,
        header::UNREADABLE => Reason::Unreadable,
        header::LONG_COMMENT => Reason::LongComment,
        _ => Reason::Unportable(unportable_of(status)),
    }
}

fn unportable_of(status: u32) -> Unportable {
    match status {
        header::UNPORTABLE_MARK => Unportable::Mark,
        header::UNPORTABLE_CARRIAGE_RETURN => Unportable::CarriageReturn,
        header::UNPORTABLE_APOSTROPHE => Unportable::Apostrophe,
        header::UNPORTABLE_LINE_FEED => Unportable::LineFeed,
        header::UNPORTABLE_BACKSLASHES => Unportable::Backslashes,
        header::UNPORTABLE_LAST_BACKSLASH => Unportable::LastBackslash,
        header::UNPORTABLE_SUBSTITUTION => Unportable::Substitution,
        header::UNPORTABLE_WHITE_SPACE => Unportable::WhiteSpace,
        header::UNPORTABLE_COMMENT => Unportable::Comment,
        _ => unreachable!("these options are known, and texts are UTF-8"),
    }
}

fn warning_of(note: Note) -> Warning {
    let Note {
        kind,
        name,
        first_line,
        last_line,
    } = note;
    match kind {
        header::MENTIONS => Warning::Mentions {
            name,
            line: first_line,
        },
        header::STOPS_BEFORE => Warning::StopsBefore { line: first_line },
        header::REMOVED => Warning::Removed {
            first: first_line,
            last: last_line,
        },
        _ => Warning::Dollar,
    }
}
