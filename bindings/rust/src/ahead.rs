use crate::library;
use std::io::{self, Read};
use std::{mem, str};

/// How many bytes are read at once, where no longer statement is open.
const CHUNK: usize = 8192;

/// A reader, with those of its bytes that were read and not dropped.
pub struct Ahead<R> {
    reader: R,
    bytes: Vec<u8>,
    // For one read.
    room: Vec<u8>,
    // How many line feeds were before these bytes.
    lines: u64,
    // Where the bytes after the last line feed begin.
    lines_end: usize,
    // Where the line begins before which no more whole statements are to be found, and the quote that is open there,
    // once it is known.
    searched: usize,
    quote: Option<u8>,
    // Whether the last read filled its room.
    is_filled: bool,
}

impl<R: Read> Ahead<R> {
    /// Nothing is read yet.
    pub fn new(reader: R) -> Ahead<R> {
        Ahead {
            reader,
            bytes: Vec::new(),
            room: Vec::new(),
            lines: 0,
            lines_end: 0,
            searched: 0,
            quote: None,
            is_filled: false,
        }
    }

    pub fn bytes(&self) -> &[u8] {
        &self.bytes
    }

    /// How many line feeds were before these bytes.
    pub fn lines(&self) -> u64 {
        self.lines
    }

    /// Reads once, and returns how many bytes came. If that fails, the bytes that are left are no statement, and go.
    pub fn read(&mut self) -> io::Result<usize> {
        // A long statement takes few reads, where the reader has it.
        let length = if self.is_filled {
            self.bytes.len().max(CHUNK)
        } else {
            CHUNK
        };
        self.room.resize(self.room.len().max(length), 0);
        let outcome = read_once(&mut self.reader, &mut self.room[..length]);
        let count = *outcome.as_ref().unwrap_or(&0);
        // The room may be longer, and a reader may count wrongly.
        let new = &self.room[..length][..count];
        if let Some(feed) = new.iter().rposition(|byte| *byte == b'\n') {
            self.lines_end = self.bytes.len() + feed + 1;
        }
        self.bytes.extend_from_slice(new);
        self.is_filled = count == length;
        if outcome.is_err() {
            self.drop_first(self.bytes.len());
        }
        outcome
    }

    /// Drops so many bytes.
    pub fn drop_first(&mut self, count: usize) {
        self.lines += library::count_lines(&self.bytes[..count]) as u64;
        self.bytes.drain(..count);
        self.lines_end = self.lines_end.saturating_sub(count);
        self.searched = self.searched.saturating_sub(count);
        self.quote = None;
    }

    /// How many of these bytes are whole statements, where this wasn't told before. `None` if an allocation failed.
    ///
    /// Only what was read since the last call is looked at, as each short read of a long statement has it called.
    pub fn whole(&mut self) -> Option<usize> {
        let searched = mem::replace(&mut self.searched, self.lines_end);
        let new = &self.bytes[searched..self.lines_end];
        if new.is_empty() || (searched > 0 && !may_end(new, self.quote)) {
            return Some(0);
        }
        // Of the lines before, all that counts is the quote that is open.
        let (begin, at) = match self.quote {
            Some(quote) => (vec![b'A', b'=', quote], searched),
            None => (Vec::new(), 0),
        };
        let lines = [&begin[..], &self.bytes[at..self.lines_end]].concat();
        let whole = library::whole(&lines)?;
        if whole > 0 {
            return Some(at + whole - begin.len());
        }
        self.quote = Some(library::open_quote(&lines)?);
        Some(0)
    }

    /// From now on all of these bytes may be whole statements.
    pub fn search_again(&mut self) {
        self.searched = 0;
        self.quote = None;
    }
}

// Whether a statement may end in these lines of it: it ends with its quote, or before a line that isn't UTF-8.
fn may_end(lines: &[u8], quote: Option<u8>) -> bool {
    let mut is_escaped = false;
    let has_quote = lines.iter().any(|byte| {
        let is_end = !is_escaped && quote.map_or(matches!(*byte, b'\'' | b'"'), |it| it == *byte);
        is_escaped = !is_escaped && *byte == b'\\';
        is_end
    });
    has_quote || str::from_utf8(lines).is_err()
}

// One read. An interrupted one is made again.
fn read_once<R: Read>(reader: &mut R, room: &mut [u8]) -> io::Result<usize> {
    loop {
        match reader.read(room) {
            Err(error) if error.kind() == io::ErrorKind::Interrupted => {}
            outcome => return outcome,
        }
    }
}
