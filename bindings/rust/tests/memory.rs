//! How much memory calls take, and what they do where the library gets no memory. These are one test, since they count
//! what the process has. What would take long asks for much, too: so what is asked for counts, and no time.
//!
//! `malloc` and its like are these of this file, for the library and for Rust.

use dotenvy::{Dialect, EnvMap, Error, Mode};
use std::alloc::{GlobalAlloc, Layout};
use std::env;
use std::ffi::c_void;
use std::io::{self, Read};
use std::sync::atomic::{AtomicBool, AtomicUsize, Ordering::SeqCst};

extern "C" {
    fn __libc_malloc(size: usize) -> *mut c_void;
    fn __libc_calloc(count: usize, size: usize) -> *mut c_void;
    fn __libc_realloc(old: *mut c_void, size: usize) -> *mut c_void;
    fn __libc_free(old: *mut c_void);
    fn __libc_memalign(alignment: usize, size: usize) -> *mut c_void;
    fn malloc_usable_size(block: *mut c_void) -> usize;
}

static HELD: AtomicUsize = AtomicUsize::new(0);
static MOST: AtomicUsize = AtomicUsize::new(0);

// How many bytes Rust asked for, also those that were given back.
static ASKED: AtomicUsize = AtomicUsize::new(0);

// How many more requests of the library succeed. The last number: all.
static LEFT: AtomicUsize = AtomicUsize::new(usize::MAX);
static REFUSED: AtomicUsize = AtomicUsize::new(0);

// Whether one request is refused, and not those after it.
static IS_ONE: AtomicBool = AtomicBool::new(false);

/// # Safety
///
/// The block is one of the C library, or null.
unsafe fn counted(block: *mut c_void) -> *mut c_void {
    if !block.is_null() {
        let size = malloc_usable_size(block);
        let held = HELD.fetch_add(size, SeqCst) + size;
        MOST.fetch_max(held, SeqCst);
    }
    block
}

/// # Safety
///
/// The block is one of the C library, or null, and is not used any more.
unsafe fn freed(block: *mut c_void) {
    if !block.is_null() {
        HELD.fetch_sub(malloc_usable_size(block), SeqCst);
        __libc_free(block);
    }
}

/// # Safety
///
/// As for `freed`.
unsafe fn resized(old: *mut c_void, size: usize) -> *mut c_void {
    let before = if old.is_null() {
        0
    } else {
        malloc_usable_size(old)
    };
    let new = __libc_realloc(old, size);
    if !new.is_null() {
        HELD.fetch_sub(before, SeqCst);
    }
    counted(new)
}

fn is_refused() -> bool {
    let left = LEFT.fetch_update(SeqCst, SeqCst, |left| match left {
        usize::MAX => Some(left),
        0 => None,
        _ => Some(left - 1),
    });
    if left.is_err() {
        REFUSED.fetch_add(1, SeqCst);
        if IS_ONE.load(SeqCst) {
            LEFT.store(usize::MAX, SeqCst);
        }
    }
    left.is_err()
}

// What the library asks, and the C library for itself.
#[no_mangle]
extern "C" fn malloc(size: usize) -> *mut c_void {
    if is_refused() {
        return std::ptr::null_mut();
    }
    // SAFETY: the block is that of the C library.
    unsafe { counted(__libc_malloc(size)) }
}

#[no_mangle]
extern "C" fn calloc(count: usize, size: usize) -> *mut c_void {
    // SAFETY: the block is that of the C library.
    unsafe { counted(__libc_calloc(count, size)) }
}

#[no_mangle]
unsafe extern "C" fn realloc(old: *mut c_void, size: usize) -> *mut c_void {
    if is_refused() {
        return std::ptr::null_mut();
    }
    resized(old, size)
}

#[no_mangle]
unsafe extern "C" fn free(old: *mut c_void) {
    freed(old);
}

struct Rust;

// SAFETY: each block is one of the C library, of at least this size and alignment, and is freed by it.
unsafe impl GlobalAlloc for Rust {
    unsafe fn alloc(&self, layout: Layout) -> *mut u8 {
        ASKED.fetch_add(layout.size(), SeqCst);
        counted(__libc_memalign(layout.align().max(16), layout.size())).cast()
    }

    unsafe fn dealloc(&self, block: *mut u8, _: Layout) {
        freed(block.cast());
    }
}

#[global_allocator]
static RUST: Rust = Rust;

// The most bytes that are held at once while this runs, beyond those before.
fn most<T>(run: impl FnOnce() -> T) -> (T, usize) {
    let before = HELD.load(SeqCst);
    MOST.store(before, SeqCst);
    let done = run();
    (done, MOST.load(SeqCst) - before)
}

// How many bytes Rust asks for while this runs.
fn asked(run: impl FnOnce()) -> usize {
    let before = ASKED.load(SeqCst);
    run();
    ASKED.load(SeqCst) - before
}

// Runs this with each request of the library refused in turn, alone and with all after it. How many requests there are.
fn with_each_refused(mut run: impl FnMut() -> Result<(), Error>) -> usize {
    IS_ONE.store(true, SeqCst);
    let requests = with_more_and_more_granted(&mut run);
    IS_ONE.store(false, SeqCst);
    assert_eq!(with_more_and_more_granted(&mut run), requests);
    requests
}

// Runs this with one more request of the library granted each time, until all of them are.
fn with_more_and_more_granted(run: &mut impl FnMut() -> Result<(), Error>) -> usize {
    for granted in 0.. {
        REFUSED.store(0, SeqCst);
        LEFT.store(granted, SeqCst);
        let outcome = run();
        LEFT.store(usize::MAX, SeqCst);
        match outcome {
            Ok(()) => {
                assert_eq!(REFUSED.load(SeqCst), 0, "a refused request was no error");
                return granted;
            }
            Err(Error::Io(error)) => assert_eq!(error.kind(), io::ErrorKind::OutOfMemory),
            Err(error) => panic!("{error:?}"),
        }
    }
    unreachable!()
}

const FILE: &[u8] = b"DA=1\nDB='two\nlines'\nDC=<${DA}$D_>";

fn refused_requests_of_items_are_errors() {
    let requests = with_each_refused(|| {
        let mut items = dotenvy::from_read_iter(FILE);
        let pairs: dotenvy::Result<Vec<_>> = items.by_ref().collect();
        assert!(items.next().is_none(), "nothing is given after it");
        pairs.map(|pairs| assert_eq!(pairs.len(), 3))
    });
    assert!(requests > 3, "{requests} requests");
}

// An error that is of no line, after an item that is.
fn an_error_of_memory_has_no_line() {
    let mut items = dotenvy::from_read_iter((&b"DA=1\n"[..]).chain(&b"DB=2\n"[..]));
    items.next().unwrap().unwrap();
    assert_eq!(items.first_line(), Some(1));
    LEFT.store(0, SeqCst);
    let item = items.next();
    LEFT.store(usize::MAX, SeqCst);
    let is_refused = |error: &io::Error| error.kind() == io::ErrorKind::OutOfMemory;
    assert!(matches!(item, Some(Err(Error::Io(error))) if is_refused(&error)));
    assert_eq!((items.first_line(), items.last_line()), (None, None));
}

fn refused_requests_of_maps_are_errors() {
    let requests = with_each_refused(|| {
        let mut map = EnvMap::new();
        let added = map.add(FILE, Mode::Keep, Dialect::V15);
        assert_eq!(added.is_ok(), map.len() == 3);
        Ok(added?)
    });
    assert!(requests > 0);
}

// Where the error of a file is found, and the memory to look for its line is refused, there is no line.
fn a_line_that_is_not_found_is_none() {
    let requests = with_each_refused(|| {
        let added = EnvMap::new().add(&b"DA=1\nDB=x y\n"[..], Mode::Keep, Dialect::V15);
        let error = added.unwrap_err();
        match (error.error(), REFUSED.load(SeqCst)) {
            (Error::LineParse(..), 0) => {
                assert_eq!(error.line(), Some(2));
                Ok(())
            }
            (Error::LineParse(..), _) => {
                assert_eq!(error.line(), None);
                Err(io::Error::from(io::ErrorKind::OutOfMemory).into())
            }
            _ => Err(error.into()),
        }
    });
    assert!(requests > 3, "{requests} requests");
}

// A load that doesn't set anything, since that asks for memory, too.
fn refused_requests_of_loads_are_errors() {
    for name in ["DA", "DB", "DC"] {
        env::set_var(name, "there");
    }
    assert!(with_each_refused(|| dotenvy::from_read(FILE)) > 3);
}

fn line_feeds_take_little() {
    let (count, held) =
        most(|| dotenvy::from_read_iter(io::repeat(b'\n').take(10_000_000)).count());
    assert_eq!(count, 0);
    assert!(held < 2_000_000, "{held} bytes for line feeds");
    let ((), held) = most(|| dotenvy::from_read(io::repeat(b'\n').take(10_000_000)).unwrap());
    assert!(held < 2_000_000, "{held} bytes for line feeds");
    let mut map = EnvMap::new();
    let (added, held) =
        most(|| map.add(io::repeat(b'\n').take(1_000_000), Mode::Keep, Dialect::V15));
    added.unwrap();
    // The file itself is held.
    assert!(held < 8_000_000, "{held} bytes for line feeds into a map");
}

fn a_long_value_takes_a_few_times_its_length() {
    let value = "x\n".repeat(500_000);
    let file = format!("DL='{value}'\n");
    let (count, held) = most(|| {
        dotenvy::from_read_iter(file.as_bytes())
            .filter(Result::is_ok)
            .count()
    });
    assert_eq!(count, 1);
    assert!(held < 20 * file.len(), "{held} bytes for {}", file.len());
}

/// A reader that gives a line at each read.
struct Lines<'a>(std::str::SplitInclusive<'a, char>);

impl Read for Lines<'_> {
    fn read(&mut self, buffer: &mut [u8]) -> io::Result<usize> {
        let line = self.0.next().unwrap_or("");
        buffer[..line.len()].copy_from_slice(line.as_bytes());
        Ok(line.len())
    }
}

// If the library looked at all of a statement at each read, long ones would take long.
fn a_long_value_that_comes_in_lines_is_looked_at_seldom() {
    for line in ["\"a\": \"b\",\n", "\u{e9}\n", "\\'\n"] {
        let file = format!(
            "DA='{}'\nDB=\"\n{}\"\n",
            line.repeat(1000),
            "'\\\"\n".repeat(1000)
        );
        LEFT.store(1_000_000, SeqCst);
        let items = dotenvy::from_read_iter(Lines(file.split_inclusive('\n')));
        assert_eq!(items.count(), 2);
        let requests = 1_000_000 - LEFT.swap(usize::MAX, SeqCst);
        assert!(requests < 200, "{requests} requests for lines of {line}");
    }
}

fn values_are_made_when_their_items_are_asked_for() {
    // The last value would have 8 MB.
    let doubled = (1..=20).map(|number| format!("D{number}=${{D{0}}}${{D{0}}}\n", number - 1));
    let file = "D0=12345678\n".to_owned() + &doubled.collect::<String>();
    let ((), held) = most(|| {
        let mut items = dotenvy::from_read_iter(file.as_bytes());
        for number in 0..10 {
            let (_, value) = items.next().unwrap().unwrap();
            assert_eq!(value.len(), 8 << number);
        }
    });
    assert!(held < 1_000_000, "{held} bytes for the first values");
}

// What is asked for grows as the files do, and not faster.
fn grows_as(what: &str, items_of: impl Fn(usize)) {
    let (short, long) = (asked(|| items_of(2000)), asked(|| items_of(8000)));
    assert!(long < 6 * short, "{what}: {short} bytes, then {long}");
}

// Braces that may each begin a name, before the one that ends them.
fn many_braces_take_little() {
    for (before, brace, after) in [("", "${", ""), ("'", "${", "'"), ("", "\\${", "")] {
        grows_as(brace, |length| {
            let file = format!("DA={before}{}{after}}}\n", brace.repeat(length));
            assert_eq!(dotenvy::from_read_iter(file.as_bytes()).count(), 1);
        });
    }
}

// A quote ends on each line, and another one begins.
fn quotes_that_begin_on_each_line_take_little() {
    grows_as("quotes", |length| {
        let file = format!("DA=\"\n{}\"\n", "\"'\n'\"\n".repeat(length / 2));
        let items = dotenvy::from_read_iter(Lines(file.split_inclusive('\n')));
        assert_eq!(items.filter(Result::is_ok).count(), 1);
    });
}

fn a_small_file_over_many_variables_takes_little() {
    for number in 0..4000 {
        env::set_var(format!("DV_{number}"), "x".repeat(20));
    }
    let asked = asked(|| dotenvy::from_read_override(&b"DA=1\nDB=${DA}\n"[..]).unwrap());
    // A copy of the variables would have more.
    assert!(asked < 4000 * 25, "{asked} bytes");
}

#[test]
fn memory() {
    refused_requests_of_items_are_errors();
    an_error_of_memory_has_no_line();
    refused_requests_of_maps_are_errors();
    a_line_that_is_not_found_is_none();
    refused_requests_of_loads_are_errors();
    line_feeds_take_little();
    a_long_value_takes_a_few_times_its_length();
    a_long_value_that_comes_in_lines_is_looked_at_seldom();
    values_are_made_when_their_items_are_asked_for();
    many_braces_take_little();
    quotes_that_begin_on_each_line_take_little();
    a_small_file_over_many_variables_takes_little();
}
