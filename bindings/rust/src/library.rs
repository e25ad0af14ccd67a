//! The calls of libdotenvy.a, made safe: bytes in, bytes out. bindings/c/dotenvy.h says what each does.
//!
//! All that this crate has in unsafe code is here.

use crate::header::*;
use std::fs::File;
use std::io;
use std::is_x86_feature_detected;
use std::ops::Range;
use std::os::raw::c_int;
use std::os::unix::io::AsRawFd;
use std::str;

extern "C" {
    // The C library's.
    fn fchown(file: c_int, owner: u32, group: u32) -> c_int;
}

/// What a load leaves, and the error at which it stopped, if its status is not `OK`.
pub struct Loaded {
    pub status: u32,
    pub index: usize,
    bytes: Vec<u8>,
    block_len: usize,
}

impl Loaded {
    /// The names and values that the load leaves.
    pub fn pairs(&self) -> impl Iterator<Item = (&str, &str)> {
        let entries = text(&self.bytes[..self.block_len]).split('\0');
        entries.filter_map(|entry| entry.split_once('='))
    }

    /// The text of the error.
    pub fn text(&self) -> &str {
        text(&self.bytes[self.block_len..])
    }
}

/// An item of a file: a pair if its status is `OK`, else an error.
pub struct Record {
    pub status: u32,
    pub key: String,
    pub text: String,
    pub index: usize,
    /// The lines that it is on, counted from 1.
    pub first_line: u64,
    pub last_line: u64,
    /// Where the bytes of these lines are in the file.
    pub place: Range<usize>,
}

/// A warning of an edit.
pub struct Note {
    pub kind: u32,
    pub name: String,
    pub first_line: u64,
    pub last_line: u64,
}

/// The new file of an edit; or, if its status is not `OK`, why it is refused, and the line at fault.
pub struct Edited {
    pub status: u32,
    pub line: u64,
    pub file: Vec<u8>,
    pub notes: Vec<Note>,
}

// What the library writes, other than the file of an edit.
fn text(bytes: &[u8]) -> &str {
    str::from_utf8(bytes).expect("the library writes UTF-8")
}

/// How many items there is room for at first, at most. A call that needs more is made again.
const ITEMS: usize = 8193;

/// The error of a processor that lacks what the code of the library needs (x86-64-v2). A call would end the process
/// there, by an illegal instruction: so this is asked before the others here.
pub fn check_processor() -> io::Result<()> {
    or_unsupported(runs_here())
}

fn runs_here() -> bool {
    is_x86_feature_detected!("sse3")
        && is_x86_feature_detected!("ssse3")
        && is_x86_feature_detected!("sse4.1")
        && is_x86_feature_detected!("sse4.2")
        && is_x86_feature_detected!("popcnt")
        && is_x86_feature_detected!("cmpxchg16b")
}

fn or_unsupported(runs: bool) -> io::Result<()> {
    if runs {
        return Ok(());
    }
    Err(io::Error::new(
        io::ErrorKind::Unsupported,
        "dotenvy needs a processor of x86-64-v2, with SSE4.2 and POPCNT",
    ))
}

/// Loads a file over the environment of a block.
pub fn load(file: &[u8], block: &[u8], options: u32) -> Loaded {
    let mut out = vec![0; 2 * (file.len() + block.len()) + 64];
    let mut answer = Answer::default();
    loop {
        // SAFETY: each pointer is that of a slice, a vector or a variable, and each length is that of what the pointer
        // before it leads to. What is written to is borrowed by nothing else: `out` is a vector of its own. `Answer` is
        // the struct of the header, as a test compares.
        unsafe {
            dotenvy_load(
                file.as_ptr(),
                file.len(),
                block.as_ptr(),
                block.len(),
                options,
                &mut answer,
                out.as_mut_ptr(),
                out.len(),
            );
        }
        let need = answer.block_len + answer.text_len;
        if answer.status == NO_MEMORY || answer.fits {
            out.truncate(need);
            return Loaded {
                status: answer.status,
                index: answer.index,
                bytes: out,
                block_len: answer.block_len,
            };
        }
        assert!(need > out.len(), "these options are known");
        out.resize(need, 0);
    }
}

/// The items of a file under the environment of a block, or `None` if an allocation failed.
pub fn items(file: &[u8], block: &[u8], options: u32) -> Option<Vec<Record>> {
    let mut items = vec![Item::default(); (count_lines(file) + 1).min(ITEMS)];
    let mut out = vec![0; 2 * file.len() + 64];
    let mut counts = Counts::default();
    loop {
        // SAFETY: as in `load`; `items` is a vector of its own, too, of the header's struct.
        unsafe {
            dotenvy_items(
                file.as_ptr(),
                file.len(),
                block.as_ptr(),
                block.len(),
                options,
                &mut counts,
                items.as_mut_ptr(),
                items.len(),
                out.as_mut_ptr(),
                out.len(),
            );
        }
        if counts.status == NO_MEMORY {
            return None;
        }
        if counts.fits {
            items.truncate(counts.items);
            return Some(items.iter().map(|item| record(item, &out)).collect());
        }
        assert!(
            counts.items > items.len() || counts.text_len > out.len(),
            "these options are known"
        );
        items.resize(counts.items.max(items.len()), Item::default());
        out.resize(counts.text_len.max(out.len()), 0);
    }
}

fn record(item: &Item, out: &[u8]) -> Record {
    let text_at = item.key_at + item.key_len;
    Record {
        status: item.status,
        key: text(&out[item.key_at..text_at]).to_owned(),
        text: text(&out[text_at..text_at + item.text_len]).to_owned(),
        index: item.index,
        first_line: item.first_line,
        last_line: item.last_line,
        place: item.file_at..item.file_at + item.file_len,
    }
}

/// The items of a file, with their lines and places, which both dialects have alike. What is told of one that has a
/// dollar is not what it says: no value grows by what its names mean, so that this takes no more memory than the file
/// does. `None` if an allocation failed.
pub fn places(file: &[u8], options: u32) -> Option<Vec<Record>> {
    // For where lines begin and end, a dollar is a character like a letter. DOTENVY_AS_WRITTEN would not do: with it,
    // too, the library makes each value with what its names mean, and drops it.
    let plain: Vec<u8> = file
        .iter()
        .map(|byte| if *byte == b'$' { b'x' } else { *byte })
        .collect();
    items(&plain, b"", options)
}

/// How many of these bytes are whole statements, whatever follows them. `None` if an allocation failed.
pub fn whole(bytes: &[u8]) -> Option<usize> {
    let mut whole = 0;
    // SAFETY: as in `load`; `whole` is a variable of its own.
    let status = unsafe { dotenvy_whole(bytes.as_ptr(), bytes.len(), 0, &mut whole) };
    if status == OK {
        Some(whole)
    } else {
        None
    }
}

/// The quote that is open at the end of these lines, which are no whole statement. `None` if an allocation failed.
pub fn open_quote(lines: &[u8]) -> Option<u8> {
    let is_single = whole(&[lines, b"'\n"].concat())? > 0;
    Some(if is_single { b'\'' } else { b'"' })
}

/// The line that declares a pair, and reads back as it, whatever the environment has. `None` if the key can be none, or
/// if an allocation failed.
pub fn written(key: &str, value: &str) -> Option<String> {
    let mut out = vec![0; key.len() + 2 * value.len() + 4];
    let mut text = Text::default();
    // SAFETY: as in `load`.
    unsafe {
        dotenvy_write(
            key.as_ptr(),
            key.len(),
            value.as_ptr(),
            value.len(),
            0,
            &mut text,
            out.as_mut_ptr(),
            out.len(),
        );
    }
    if !text.fits {
        return None;
    }
    out.truncate(text.text_len);
    String::from_utf8(out).ok()
}

/// How many line feeds there are.
pub fn count_lines(bytes: &[u8]) -> usize {
    bytes.iter().filter(|byte| **byte == b'\n').count()
}

/// Whether an environment can have a variable of this name.
pub fn is_name(name: &str) -> bool {
    !name.is_empty() && !name.contains(&['=', '\0'][..])
}

/// Appends an entry to a block. The name has no `=`, and neither has a NUL.
pub fn push_entry(block: &mut Vec<u8>, name: &str, value: &str) {
    for part in &[name, "=", value, "\0"] {
        block.extend_from_slice(part.as_bytes());
    }
}

// What an edit leaves, by a call that writes to these buffers: so many bytes are likely to do.
fn edited(room: usize, mut call: impl FnMut(&mut Edit, &mut Vec<Warning>, &mut Vec<u8>)) -> Edited {
    let mut warnings = vec![Warning::default(); 16];
    let mut out = vec![0; room + 256];
    let mut edit = Edit::default();
    loop {
        call(&mut edit, &mut warnings, &mut out);
        if edit.fits || edit.status != OK {
            let told = &warnings[..edit.warnings];
            let notes = told.iter().map(|warning| note(warning, &out)).collect();
            out.truncate(edit.file_len);
            return Edited {
                status: edit.status,
                line: edit.line,
                file: out,
                notes,
            };
        }
        let need = edit.file_len + edit.names_len;
        assert!(
            edit.warnings > warnings.len() || need > out.len(),
            "more room is asked for"
        );
        warnings.resize(edit.warnings.max(warnings.len()), Warning::default());
        out.resize(need.max(out.len()), 0);
    }
}

fn note(warning: &Warning, out: &[u8]) -> Note {
    Note {
        kind: warning.kind,
        name: text(&out[warning.name_at..warning.name_at + warning.name_len]).to_owned(),
        first_line: warning.first_line,
        last_line: warning.last_line,
    }
}

/// Sets a key of a file to a value.
pub fn set(file: &[u8], key: &[u8], value: &[u8], options: u32) -> Edited {
    let room = file.len() + key.len() + 2 * value.len();
    // SAFETY: as in `load`; `warnings` and `out` are vectors of their own, and the structs are the header's.
    edited(room, |edit, warnings, out| unsafe {
        dotenvy_set(
            file.as_ptr(),
            file.len(),
            key.as_ptr(),
            key.len(),
            value.as_ptr(),
            value.len(),
            options,
            edit,
            warnings.as_mut_ptr(),
            warnings.len(),
            out.as_mut_ptr(),
            out.len(),
        );
    })
}

/// Unsets a key of a file.
pub fn unset(file: &[u8], key: &[u8], options: u32) -> Edited {
    // SAFETY: as in `set`.
    edited(file.len(), |edit, warnings, out| unsafe {
        dotenvy_unset(
            file.as_ptr(),
            file.len(),
            key.as_ptr(),
            key.len(),
            options,
            edit,
            warnings.as_mut_ptr(),
            warnings.len(),
            out.as_mut_ptr(),
            out.len(),
        );
    })
}

/// 1000000 times the major version, 1000 times the minor one, and the number of the patch.
pub fn version() -> u32 {
    // SAFETY: nothing is passed, and a number comes back.
    unsafe { dotenvy_version() }
}

/// Gives an open file to an owner and a group.
pub fn change_owner(file: &File, owner: u32, group: u32) -> io::Result<()> {
    // SAFETY: the descriptor is that of an open file, and no memory is passed.
    if unsafe { fchown(file.as_raw_fd(), owner, group) } == 0 {
        Ok(())
    } else {
        Err(io::Error::last_os_error())
    }
}

#[cfg(test)]
mod tests {
    use super::*;
    use std::os::unix::fs::MetadataExt;

    #[test]
    fn a_lesser_processor_is_an_error() {
        assert!(or_unsupported(true).is_ok());
        let error = or_unsupported(false).unwrap_err();
        assert_eq!(error.kind(), io::ErrorKind::Unsupported);
        assert!(error.to_string().contains("x86-64-v2"));
        assert!(check_processor().is_ok(), "the tests run here");
    }

    #[test]
    fn an_owner_is_changed() {
        let path = std::env::temp_dir().join(format!("dotenvy-owner-{}", std::process::id()));
        let file = File::create(&path).unwrap();
        let state = file.metadata().unwrap();
        change_owner(&file, state.uid(), state.gid()).unwrap();
        if state.uid() == 0 {
            change_owner(&file, 1, 2).unwrap();
            let state = file.metadata().unwrap();
            assert_eq!((state.uid(), state.gid()), (1, 2));
        } else {
            assert!(change_owner(&file, 0, 0).is_err());
        }
        std::fs::remove_file(path).unwrap();
    }

    #[test]
    fn statements_are_whole_until_a_quote_is_open() {
        for (bytes, len) in [
            (&b""[..], 0),
            (b"A=1", 0),
            (b"\n#'\n \nA=", 6),
            (b"A=1\nB=x y\n\nC='\n", 11),
            (b"A=\\\nB=1 \nC=1 # '\nD", 17),
            (b"A='\n\xff\nB=\"\nC='\n", 6),
            (b"A=$B'\nB='\nC=", 10),
        ] {
            assert_eq!(whole(bytes), Some(len), "{bytes:?}");
        }
    }

    #[test]
    fn a_quote_is_open_until_it_comes_again() {
        for (lines, quote) in [
            (&b"A='\n"[..], b'\''),
            (b"A=\"\n", b'"'),
            (b"A='\"\n\"\n", b'\''),
            (b"A=\"'\n'\n", b'"'),
            (b"A='\n'\"\n", b'"'),
            (b"A=\"\n\"'\n", b'\''),
            (b"A='\\'\n\\\n", b'\''),
            (b"A=\"\\\"\n\\\n", b'"'),
        ] {
            assert_eq!(whole(lines), Some(0));
            assert_eq!(open_quote(lines), Some(quote), "{lines:?}");
        }
    }

    #[test]
    fn a_written_pair_reads_back() {
        for value in [
            "",
            "a",
            "\\",
            "'\"$A${A}\\\"\n # é",
            "\0\r\n \u{feff}é#",
            "\\n$",
        ] {
            let line = written("A", value).expect("it can be written");
            for options in [0, NEXT_DIALECT] {
                let items = items(line.as_bytes(), b"A=9\0", options).expect("there is memory");
                assert_eq!((items.len(), items[0].status), (1, OK));
                assert_eq!((&items[0].key[..], &items[0].text[..]), ("A", value));
            }
        }
        assert_eq!(written("1A", ""), None);
    }

    #[test]
    fn places_are_those_of_the_items() {
        let file = b"\xef\xbb\xbf#'\nA=$\n\n#$'\nB='$A\n$\n'\n$C=1\nD=\"$A\"\n\nE='\n\xff$\nF=\\$ # '\nG=$$'\n";
        let standing = |items: Option<Vec<Record>>| -> Vec<_> {
            let items = items.expect("there is memory").into_iter();
            let standing = items.map(|item| (item.first_line, item.last_line, item.place));
            standing.collect()
        };
        for mark in [0, DROP_MARK] {
            let found = standing(places(file, mark));
            for dialect in [0, NEXT_DIALECT] {
                assert_eq!(found, standing(items(file, b"", mark | dialect)));
            }
        }
        assert_eq!(standing(places(file, DROP_MARK)).len(), 7);
    }

    #[test]
    fn items_are_of_lines() {
        let file = b"\n# c\nA='x\ny'\n\nB=x y\r\nC=3";
        let items = items(file, b"", 0).expect("there is memory");
        let places: Vec<_> = items.iter().map(|item| &file[item.place.clone()]).collect();
        assert_eq!(places, [&b"A='x\ny'\n"[..], b"B=x y\r\n", b"C=3"]);
        let lines: Vec<_> = items
            .iter()
            .map(|item| (item.first_line, item.last_line))
            .collect();
        assert_eq!(lines, [(3, 4), (6, 6), (7, 7)]);
    }

    #[test]
    fn a_load_leaves_pairs_and_the_text_of_its_error() {
        let loaded = load(b"B=$A\nC=x y\n", b"A=9=8\0", 0);
        let pairs: Vec<_> = loaded.pairs().collect();
        assert_eq!(pairs, [("A", "9=8"), ("B", "9=8")]);
        assert_eq!(
            (loaded.status, loaded.text(), loaded.index),
            (LINE_PARSE, "x y", 2)
        );
    }

    #[test]
    fn room_that_is_too_small_is_made_larger() {
        let block = [b"LONG=", &[b'x'; 1000][..], b"\0"].concat();
        let file = b"A=$LONG$LONG$LONG\nB=$A$A\n";
        let items = items(file, &block, 0).expect("there is memory");
        assert_eq!(
            items.iter().map(|item| item.text.len()).collect::<Vec<_>>(),
            [3000, 6000]
        );
        let loaded = load(file, &block, OVERRIDE);
        assert_eq!(
            loaded
                .pairs()
                .map(|(_, value)| value.len())
                .collect::<Vec<_>>(),
            [3000, 6000, 1000]
        );
    }

    #[test]
    fn empty_inputs() {
        assert_eq!(load(b"", b"", 0).pairs().count(), 0);
        assert_eq!(items(b"", b"", 0).map(|items| items.len()), Some(0));
    }

    #[test]
    fn an_edit_has_room_for_many_warnings() {
        let names: Vec<_> = (0..1000)
            .map(|number| format!("LONG_NAME_{number}=$A\n"))
            .collect();
        let file = "A=1\n".to_owned() + &names.concat();
        let edited = unset(file.as_bytes(), b"A", 0);
        assert_eq!((edited.status, edited.file.len()), (OK, file.len() - 4));
        let last = edited.notes.last().expect("there are warnings");
        assert_eq!((edited.notes.len(), last.kind), (1000, MENTIONS));
        assert_eq!((&last.name[..], last.first_line), ("LONG_NAME_999", 1001));
        let long = vec![b'"'; 100_000];
        assert_eq!(set(b"", b"A", &long, 0).file.len(), long.len() + 5);
    }
}
