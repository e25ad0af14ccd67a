//! Prints a line for each thing that the crate does with readers, files and variables, as far as a caller can see it.

use std::cell::Cell;
use std::ffi::OsString;
use std::io::{self, Cursor, Read, Write};
use std::os::unix::ffi::OsStringExt;
use std::os::unix::net::UnixStream;
use std::path::{Path, PathBuf};
use std::process::Command;
use std::rc::Rc;
use std::time::Duration;
use std::{env, fs, panic};

type Part = io::Result<&'static str>;

/// A reader that gives one part at each read, then ends.
struct Parts {
    parts: std::vec::IntoIter<Part>,
    reads: Rc<Cell<usize>>,
}

impl Read for Parts {
    fn read(&mut self, buffer: &mut [u8]) -> io::Result<usize> {
        self.reads.set(self.reads.get() + 1);
        let part = self.parts.next().unwrap_or(Ok(""))?;
        buffer[..part.len()].copy_from_slice(part.as_bytes());
        Ok(part.len())
    }
}

fn parts(parts: Vec<Part>) -> (Parts, Rc<Cell<usize>>) {
    let reads = Rc::new(Cell::new(0));
    let reader = Parts {
        parts: parts.into_iter(),
        reads: reads.clone(),
    };
    (reader, reads)
}

fn gone() -> Part {
    Err(io::Error::new(io::ErrorKind::ConnectionReset, "gone"))
}

fn variables() -> Vec<(String, OsString)> {
    env::vars_os()
        .map(|(name, value)| (name.to_string_lossy().into_owned(), value))
        .filter(|(name, _)| name.starts_with("T_"))
        .collect()
}

/// The variables of these tests, which are gone then.
fn shown() -> String {
    let mut shown: Vec<_> = variables()
        .iter()
        .map(|(name, value)| format!("{name}={value:?}"))
        .collect();
    shown.sort();
    for (name, _) in variables() {
        env::remove_var(name);
    }
    shown.join(" ")
}

fn no_text() -> OsString {
    OsString::from_vec(b"\xff\xfe".to_vec())
}

fn order() {
    dotenvy::from_read("T_Z=1\nT_A=2\nT_M=3\n".as_bytes()).unwrap();
    let names: Vec<_> = variables().into_iter().map(|(name, _)| name).collect();
    println!("01 order {:?}", names.join(" "));
    let output = Command::new("env").output().unwrap();
    let output = String::from_utf8_lossy(&output.stdout).into_owned();
    let lines: Vec<_> = output
        .lines()
        .filter(|line| line.starts_with("T_"))
        .collect();
    println!("01b child {}", lines.join(" "));
    shown();
}

fn readers() {
    let (reader, _) = parts(vec![Ok("T_A=1\n"), Ok("T_B=2\n"), gone()]);
    println!(
        "02 failing reader, load: {:?}; {}",
        dotenvy::from_read(reader),
        shown()
    );
    let (reader, reads) = parts(vec![Ok("T_A=1\n"), Ok("T_B=2\n"), gone(), Ok("T_C=3\n")]);
    let items: Vec<_> = dotenvy::from_read_iter(reader)
        .take(6)
        .map(|item| format!("{item:?}"))
        .collect();
    println!("03 failing reader, iter: {items:?} reads {}", reads.get());
    let (reader, reads) = parts((0..1000).map(|_| Ok("T_A=1\n")).collect());
    let mut items = dotenvy::from_read_iter(reader);
    let before = reads.get();
    items.next();
    println!(
        "04 reads before first item {before}, at the first item {}",
        reads.get()
    );
    let (mut ours, theirs) = UnixStream::pair().unwrap();
    theirs
        .set_read_timeout(Some(Duration::from_secs(5)))
        .unwrap();
    ours.write_all(b"T_A=1\nT_B='two\n").unwrap();
    let mut items = dotenvy::from_read_iter(theirs);
    println!("04b a socket that stays open {:?}", items.next());
    let mut items = dotenvy::from_read_iter("A=${T_X}\nB=${T_X}\n".as_bytes());
    env::set_var("T_X", "one");
    let first = items.next();
    env::set_var("T_X", "two");
    println!("05 env changed between items {first:?} {:?}", items.next());
    shown();
}

fn values() {
    env::set_var("T_N", no_text());
    let load = dotenvy::from_read("T_N=new\n".as_bytes());
    println!("06 non-UTF-8 value there, fresh load: {load:?} {}", shown());
    env::set_var("T_N", no_text());
    let mut items = dotenvy::from_read_iter("T_0=0\nT_N=new\n".as_bytes());
    items.next();
    println!(
        "07 non-UTF-8 value there, load behind an item: {:?} {}",
        items.load(),
        shown()
    );
    let load = panic::catch_unwind(|| dotenvy::from_read("T_A=1\nT_B=a\0b\nT_C=3\n".as_bytes()));
    println!(
        "08 NUL value, load: {:?} {}",
        load.map_err(|_| "PANIC"),
        shown()
    );
    let items: Vec<_> = dotenvy::from_read_iter("T_B=a\0b\n".as_bytes()).collect();
    println!("09 NUL value, items: {items:?}");
    let items: Vec<_> = dotenvy::from_read_iter(Cursor::new(b"A=1\nB=\xff\nC=3\n")).collect();
    println!("10 not UTF-8: {items:?}");
    println!(
        "10b {}",
        dotenvy::from_read(Cursor::new(b"B=\xff\n")).unwrap_err()
    );
}

fn paths(folder: &Path) {
    println!("11 a folder: {:?}", dotenvy::from_path(folder));
    let items = dotenvy::from_path_iter(folder).map(|items| items.take(3).collect::<Vec<_>>());
    println!("11b {items:?}");
    let (error, again) = (
        dotenvy::from_path("nx.env"),
        dotenvy::from_path("nx.env").unwrap_err(),
    );
    println!("12 no file: {error:?} {again}");
    let (error, again) = (
        dotenvy::from_filename("nx.env"),
        dotenvy::from_filename("nx.env").unwrap_err(),
    );
    println!("12b {error:?} {again}");
    println!("13 empty name: {:?}", dotenvy::from_filename(""));
    println!("13b {:?}", dotenvy::from_filename(".."));
    println!("13c {:?}", dotenvy::from_filename("a\0b"));
    let below = |path: PathBuf| path.strip_prefix(folder).unwrap().to_owned();
    fs::create_dir_all(folder.join("sub/.env")).unwrap();
    fs::write(folder.join(".env"), "T_UP=1\n").unwrap();
    env::set_current_dir(folder.join("sub")).unwrap();
    println!(
        "14 folder .env, file above: {:?} {}",
        dotenvy::dotenv().map(below),
        shown()
    );
    fs::write(folder.join("sub/x.env"), "").unwrap();
    fs::create_dir(folder.join("sub/deep")).unwrap();
    env::set_current_dir(folder.join("sub/deep")).unwrap();
    println!(
        "15 name with a folder: {:?}",
        dotenvy::from_filename("sub/x.env").map(below)
    );
    let error = dotenvy::from_filename(folder.join(".env/x")).map_err(|error| error.to_string());
    println!("16 file as folder: {error:?}");
}

fn items() {
    let file = "A.B=1\n_=2\nÄ=3\n1=4\n=5\n";
    let items: Vec<_> = dotenvy::from_read_iter(file.as_bytes())
        .map(|item| format!("{item:?}"))
        .collect();
    println!("17 dotted: {items:?}");
    let file = "\u{feff}T_A=1\nT_B=2\n";
    let mut items = dotenvy::from_read_iter(file.as_bytes());
    let first = format!("{:?}", items.next());
    let load = format!("{:?}", items.load());
    println!(
        "18 used iterator, load drops mark? {:?}",
        (first, load, shown())
    );
    println!(
        "18b fresh: {:?} {}",
        dotenvy::from_read(file.as_bytes()),
        shown()
    );
}

fn first_reads() {
    let interrupted = Err(io::ErrorKind::Interrupted.into());
    let (reader, _) = parts(vec![interrupted, Ok("T_A=1\n")]);
    let load = dotenvy::from_read(reader);
    println!("27 interrupted first read: {load:?} {:?}", shown());
    let reader = (&b"\xef"[..]).chain(&b"\xbb\xbfT_A=1\n"[..]);
    println!(
        "27b mark in two reads: {:?} {:?}",
        dotenvy::from_read(reader),
        shown()
    );
    let (reader, reads) = parts(vec![Ok("A='x"), Ok(""), Ok("y'\n")]);
    let item = dotenvy::from_read_iter(reader).next();
    println!("27c end in a quote: {item:?} reads {}", reads.get());
}

fn loads() {
    let file = "T_A=1\nT_B=${T_A}\nT_A=2\nT_C=${T_A}\n";
    env::set_var("T_A", "env");
    println!(
        "19 override, substitution: {:?} {}",
        dotenvy::from_read_override(file.as_bytes()),
        shown()
    );
    println!(
        "20 load, substitution: {:?} {}",
        dotenvy::from_read(file.as_bytes()),
        shown()
    );
    let file = "T_0=z\n".to_owned() + file;
    let mut items = dotenvy::from_read_iter(file.as_bytes());
    items.next();
    env::set_var("T_A", "env");
    println!("21 used, override: {:?} {}", items.load_override(), shown());
    let mut items = dotenvy::from_read_iter(file.as_bytes());
    items.next();
    println!("21b used, load: {:?} {}", items.load(), shown());
}

fn ends() {
    let broken = || dotenvy::from_read("T_A='x\n".as_bytes());
    println!("22 error text: {} | {:?}", broken().unwrap_err(), broken());
    let mut items = dotenvy::from_read_iter("A=1\nB=2\n".as_bytes());
    let before = items.size_hint();
    items.next();
    println!("23 by_ref/size_hint: {before:?} {:?}", items.size_hint());
    let mut items = dotenvy::from_read_iter(parts(vec![Ok("A=1\n"), Ok(""), Ok("B=2\n")]).0);
    let three = format!("{:?} {:?} {:?}", items.next(), items.next(), items.next());
    println!("24 after the end: {three:?}");
}

fn main() {
    panic::set_hook(Box::new(|_| {}));
    let folder = env::temp_dir().join(format!("dotenvy-behaviour-{}", std::process::id()));
    fs::create_dir(&folder).unwrap();
    env::set_current_dir(&folder).unwrap();
    order();
    readers();
    values();
    paths(&folder);
    items();
    loads();
    ends();
    let absent = dotenvy::var("T_NONE");
    env::set_var("T_N", no_text());
    println!("25 var {absent:?} {:?}", dotenvy::var("T_N"));
    shown();
    env::set_var("T_E", "");
    let load = dotenvy::from_read("T_E=file\nT_S=<${T_E}>\n".as_bytes());
    println!("26 existing empty value: {load:?} {}", shown());
    first_reads();
    fs::remove_dir_all(&folder).unwrap();
    println!("28 cwd gone: {:?}", dotenvy::dotenv());
}
