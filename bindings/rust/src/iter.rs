use crate::ahead::Ahead;
use crate::dialect::Dialect;
use crate::error::{Error, Result};
use crate::header;
use crate::library::{self, Record};
use crate::settled::settled;
use std::collections::HashMap;
use std::io::{self, Read};
use std::{env, str, vec};

const MARK: &[u8] = b"\xef\xbb\xbf";

/// The pairs and the errors of a file, in order.
///
/// The reader is read only as far as the next item needs, at most 8,192 bytes ahead, or as many bytes as the statement
/// has that is open. A name in a value means what the process's environment has for it when you ask for the item. If it
/// has nothing, the name means the last value that this iterator gave for it.
///
/// A read that fails is an error among the items, and a statement that was begun is dropped. If you call `next` again,
/// reading goes on; so it does after the end. Only where the library gets no memory, or doesn't run on this processor,
/// are there no more items after the error, which is of kind `OutOfMemory` or `Unsupported`.
pub struct Iter<R> {
    ahead: Ahead<R>,
    dialect: Dialect,
    // The items of the whole statements ahead that nobody asked for yet.
    items: vec::IntoIter<Record>,
    // How many of the bytes ahead are whole statements, and how many of these were given as items.
    whole: usize,
    given: usize,
    // The lines of the last item.
    item_lines: Option<(u64, u64)>,
    // The last value of each name.
    values: HashMap<String, String>,
    is_over: bool,
}

impl<R: Read> Iter<R> {
    /// An iterator over a file that this reader gives. Nothing is read yet.
    ///
    /// ```
    /// let mut items = dotenvy::Iter::new(&b"A=1\n"[..]);
    /// assert_eq!(items.next().unwrap()?, ("A".to_owned(), "1".to_owned()));
    /// # Ok::<(), dotenvy::Error>(())
    /// ```
    pub fn new(reader: R) -> Iter<R> {
        Iter::with_dialect(reader, Dialect::V15)
    }

    /// As `new`, of a file in this dialect.
    ///
    /// ```
    /// use dotenvy::{Dialect, Iter};
    ///
    /// let file = &b"A_B=1\nC=<$A_B>\n"[..];
    /// let value_of_c = |mut items: Iter<_>| items.nth(1).unwrap().unwrap().1;
    /// assert_eq!(value_of_c(Iter::with_dialect(file, Dialect::Next)), "<1>");
    /// assert_eq!(value_of_c(Iter::with_dialect(file, Dialect::V15)), "<_B>");
    /// ```
    pub fn with_dialect(reader: R, dialect: Dialect) -> Iter<R> {
        Iter {
            ahead: Ahead::new(reader),
            dialect,
            items: Vec::new().into_iter(),
            whole: 0,
            given: 0,
            item_lines: None,
            values: HashMap::new(),
            is_over: false,
        }
    }

    /// Sets the variables of the file that the process doesn't have, one after another, and stops at the first error.
    ///
    /// A byte order mark is dropped where the load begins.
    ///
    /// ```
    /// dotenvy::Iter::with_dialect(&b"A_B=1\nC=$A_B\n"[..], dotenvy::Dialect::Next).load()?;
    /// assert_eq!(std::env::var("C").as_deref(), Ok("1"));
    /// # Ok::<(), dotenvy::Error>(())
    /// ```
    pub fn load(self) -> Result<()> {
        self.load_with(false)
    }

    /// As `load`, but a variable that exists gets the value that the file gives it.
    pub fn load_override(self) -> Result<()> {
        self.load_with(true)
    }

    /// The line on which the last item begins, counted from 1. `None` before the first item, and after an error that is
    /// of no line, such as that of a read.
    ///
    /// ```
    /// let mut items = dotenvy::from_read_iter(&b"A=1\n\nB=two words\n"[..]);
    /// while let Some(item) = items.next() {
    ///     if let Err(error) = item {
    ///         assert_eq!(items.first_line(), Some(3), "{}", error);
    ///     }
    /// }
    /// ```
    pub fn first_line(&self) -> Option<u64> {
        self.item_lines.map(|(first, _)| first)
    }

    /// The line on which the last item ends, where [`first_line`](Iter::first_line) has one.
    pub fn last_line(&self) -> Option<u64> {
        self.item_lines.map(|(_, last)| last)
    }

    fn load_with(mut self, is_override: bool) -> Result<()> {
        self.drop_mark()?;
        self.try_for_each(|item| item.and_then(|(key, value)| set(key, value, is_override)))
    }

    // Drops a byte order mark, if it comes next.
    fn drop_mark(&mut self) -> Result<()> {
        let given = self.given;
        self.has(Vec::new(), 0);
        self.ahead.drop_first(given);
        self.ahead.search_again();
        while self.ahead.bytes().len() < MARK.len() && MARK.starts_with(self.ahead.bytes()) {
            if self.read()? == 0 {
                break;
            }
        }
        if self.ahead.bytes().starts_with(MARK) {
            self.ahead.drop_first(MARK.len());
        }
        Ok(())
    }

    // Reads on until there are whole statements, and lists their items. `false` if the reader ends before.
    fn read_items(&mut self) -> Result<bool> {
        self.ahead.drop_first(self.whole);
        self.has(Vec::new(), 0);
        loop {
            let found = self.ahead.whole();
            let whole = self.or_over(found)?;
            if whole > 0 {
                self.list(whole)?;
                return Ok(true);
            }
            if self.read()? == 0 {
                let left = self.ahead.bytes().len();
                if left > 0 {
                    self.list(left)?;
                }
                return Ok(left > 0);
            }
        }
    }

    // Lists the items of so many bytes, from the first on.
    fn list(&mut self, whole: usize) -> Result<()> {
        let found = library::places(&self.ahead.bytes()[..whole], 0);
        let items = self.or_over(found)?;
        self.has(items, whole);
        Ok(())
    }

    // From now on these are the items ahead, of so many bytes.
    fn has(&mut self, items: Vec<Record>, whole: usize) {
        self.items = items.into_iter();
        self.whole = whole;
        self.given = 0;
    }

    // Reads once. If that fails, a statement that was begun is dropped.
    fn read(&mut self) -> Result<usize> {
        let runs = library::check_processor();
        self.is_over = runs.is_err();
        runs?;
        Ok(self.ahead.read()?)
    }

    // What the library found, or the error that it got no memory. Nothing is given after that.
    fn or_over<T>(&mut self, found: Option<T>) -> Result<T> {
        self.is_over = found.is_none();
        found.ok_or_else(|| Error::Io(io::ErrorKind::OutOfMemory.into()))
    }

    // The item as it is now: with what names in its value mean by now.
    fn item(&mut self, record: Record) -> Result<(String, String)> {
        let record = match str::from_utf8(&self.ahead.bytes()[record.place.clone()]) {
            Ok(statement) if statement.contains('$') => {
                let found = settled(statement, &self.values, self.dialect);
                self.or_over(found)?
            }
            _ => record,
        };
        if record.status != header::OK {
            return Err(error_of(record.status, record.text, record.index));
        }
        self.values.insert(record.key.clone(), record.text.clone());
        Ok((record.key, record.text))
    }
}

impl<R: Read> Iterator for Iter<R> {
    type Item = Result<(String, String)>;

    fn next(&mut self) -> Option<Result<(String, String)>> {
        while !self.is_over {
            if let Some(record) = self.items.next() {
                self.given = record.place.end;
                let before = self.ahead.lines();
                self.item_lines = Some((before + record.first_line, before + record.last_line));
                return Some(self.item(record));
            }
            match self.read_items() {
                Ok(true) => {}
                Ok(false) => return None,
                Err(error) => {
                    self.item_lines = None;
                    return Some(Err(error));
                }
            }
        }
        None
    }
}

// Sets a variable, as a load does.
fn set(key: String, value: String, is_override: bool) -> Result<()> {
    if !is_override && env::var(&key).is_ok() {
        return Ok(());
    }
    if value.contains('\0') {
        return Err(Error::Nul(key));
    }
    env::set_var(key, value);
    Ok(())
}

/// The error of a load or of an item.
pub fn error_of(status: u32, text: String, index: usize) -> Error {
    match status {
        header::LINE_PARSE => Error::LineParse(text, index),
        header::NUL => Error::Nul(text),
        header::NOT_UTF8 => Error::Io(not_utf8()),
        header::NO_MEMORY => Error::Io(io::ErrorKind::OutOfMemory.into()),
        _ => Error::Io(io::Error::new(io::ErrorKind::Other, "too many reads")),
    }
}

// The error that the standard library has for it.
fn not_utf8() -> io::Error {
    match (&b"\xff"[..]).read_to_string(&mut String::new()) {
        Err(error) => error,
        Ok(_) => io::ErrorKind::InvalidData.into(),
    }
}
