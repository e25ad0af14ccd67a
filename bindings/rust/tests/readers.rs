//! What is read when, and what a name means by then.

mod common;

use common::{tell, told, value, Folder, Parts};
use dotenvy::{Dialect, Error, Iter};
use std::ffi::OsString;
use std::io::{self, ErrorKind, Read, Write};
use std::os::unix::ffi::OsStringExt;
use std::os::unix::net::UnixStream;
use std::time::Duration;
use std::{env, fs, panic};

/// A reader of bytes that counts its reads.
struct Counted<'a> {
    rest: &'a [u8],
    reads: usize,
}

impl Read for Counted<'_> {
    fn read(&mut self, buffer: &mut [u8]) -> io::Result<usize> {
        self.reads += 1;
        self.rest.read(buffer)
    }
}

#[test]
fn pairs_before_a_failing_read_are_set() {
    let _folder = Folder::new("failing-load");
    let reader = Parts::new(&[
        Ok("DA=1\n"),
        Ok("DB=2\nDC='"),
        Err(ErrorKind::ConnectionReset),
        Ok("DD=4\n"),
    ]);
    let error = dotenvy::from_read(reader).unwrap_err();
    assert!(matches!(error, Error::Io(error) if error.kind() == ErrorKind::ConnectionReset));
    let values = ["DA", "DB", "DC", "DD"].map(value);
    assert_eq!(values, [Some("1".into()), Some("2".into()), None, None]);
}

#[test]
fn pairs_before_a_failing_read_are_set_by_a_load_of_what_is_left() {
    let _folder = Folder::new("failing-rest");
    let parts = [Ok("DA=1\nDB=2\nDC='\n"), Err(ErrorKind::TimedOut)];
    let mut items = Iter::new(Parts::new(&parts));
    items.next().unwrap().unwrap();
    let error = items.load().unwrap_err();
    assert!(matches!(error, Error::Io(error) if error.kind() == ErrorKind::TimedOut));
    let values = ["DA", "DB", "DC"].map(value);
    assert_eq!(values, [None, Some("2".into()), None]);
}

#[test]
fn items_go_on_after_a_failing_read() {
    let _folder = Folder::new("failing-items");
    let parts = [
        Ok("DA=1\nDB='x\n"),
        Err(ErrorKind::TimedOut),
        Ok("DC=3\n"),
        Ok("DD=4"),
    ];
    let reader = Parts::new(&parts);
    let reads = reader.reads.clone();
    let items = told(dotenvy::from_read_iter(reader));
    assert_eq!(items, ["DA=1", "Io(Kind(TimedOut))", "DC=3", "DD=4"]);
    assert!(reads.get() <= 6, "{} reads", reads.get());
}

#[test]
fn a_load_after_a_read_that_failed() {
    let _folder = Folder::new("failing-before");
    let parts = [
        Ok("DA=1\n"),
        Err(ErrorKind::TimedOut),
        Ok("\u{feff}DB=2\n"),
        Ok("DC=3"),
    ];
    let mut items = Iter::new(Parts::new(&parts));
    items.next().unwrap().unwrap();
    items.next().unwrap().unwrap_err();
    items.load().unwrap();
    let values = ["DA", "DB", "DC"].map(value);
    assert_eq!(values, [None, Some("2".into()), Some("3".into())]);
}

#[test]
fn a_reader_that_always_fails() {
    let mut items = dotenvy::from_read_iter(Parts::new(&[Err(ErrorKind::PermissionDenied); 3]));
    for _ in 0..3 {
        let error = items.next().unwrap().unwrap_err();
        assert!(matches!(error, Error::Io(error) if error.kind() == ErrorKind::PermissionDenied));
    }
    assert!(items.next().is_none());
    let folder = Folder::new("folder");
    assert!(dotenvy::from_path(&folder.path).is_err());
    let items = dotenvy::from_path_iter(&folder.path).unwrap();
    assert!(items.take(3).all(|item| matches!(item, Err(Error::Io(_)))));
}

#[test]
fn an_interrupted_read_is_made_again() {
    let _folder = Folder::new("interrupted");
    let interrupted = Err(ErrorKind::Interrupted);
    dotenvy::from_read(Parts::new(&[
        interrupted,
        Ok("DA="),
        interrupted,
        Ok("1\n"),
        interrupted,
    ]))
    .unwrap();
    assert_eq!(value("DA").as_deref(), Some("1"));
}

#[test]
fn no_more_is_read_than_an_item_needs() {
    let reader = Parts::new(&[Ok("DA=1\n"); 100]);
    let reads = reader.reads.clone();
    let mut items = dotenvy::from_read_iter(reader);
    assert_eq!(reads.get(), 0);
    for number in 1..=100 {
        items.next().unwrap().unwrap();
        assert_eq!(reads.get(), number);
    }
    assert!(items.next().is_none());
    let file = [&b"DA=1\n"[..], &[b'\n'; 100_000]].concat();
    let mut rest = &file[..];
    dotenvy::from_read_iter(&mut rest).next().unwrap().unwrap();
    assert_eq!(rest.len(), file.len() - 8192);
}

#[test]
fn a_statement_of_several_reads_is_given_when_it_ends() {
    let _folder = Folder::new("several");
    // The part in which the first item ends, and that item.
    let files: [(&[u8], usize, usize, &str); 9] = [
        (b"DA='x\ny'\nDB=1\nDC=2\n", 8, 2, "DA=x\ny"),
        (b"DA='x\ny'\nDB=1\nDC=2\n", 1, 9, "DA=x\ny"),
        (b"DA=\"x\n\n\ny'\n\"\nDB=1\nDC=2\n", 4, 4, "DA=x\n\n\ny'\n"),
        (
            b"DA='\nx\n\xff\nDB=1\nDC=2\n",
            3,
            3,
            "Io(Error { kind: InvalidData, message: \"stream did not contain valid UTF-8\" })",
        ),
        (b"#'\nDA=1 #'\nDB=2\n", 4, 3, "DA=1"),
        // The other quote, and an escaped one, don't end it.
        (b"DA='\n\"\n\"\n'\nDB=1\nDC=2\n", 3, 4, "DA=\n\"\n\"\n"),
        (b"DA=\"\n\\\"\n'\n\"\nDB=1\nDC=2\n", 3, 4, "DA=\n\"\n'\n"),
        (b"DA=\"\n\\\\\"\nDB=1\nDC=2\n", 2, 5, "DA=\n\\"),
        // One ends, and another begins.
        (b"DA='\n'\"\n'\n\"\nDB=1\nDC=2\n", 1, 12, "DA=\n\n'\n"),
    ];
    for (file, length, part, item) in files {
        let reader = Parts::of_length(file, length);
        let reads = reader.reads.clone();
        let mut items = dotenvy::from_read_iter(reader);
        assert_eq!(
            (&tell(items.next().unwrap())[..], reads.get()),
            (item, part)
        );
    }
}

#[test]
fn a_statement_that_begins_where_one_ends_is_given_when_it_ends() {
    let _folder = Folder::new("begins");
    let parts = [
        Ok("DA='\n"),
        Ok("'\nDB=\"\n"),
        Ok("\"\nDC=1\n"),
        Ok("DD=2\n"),
    ];
    let reader = Parts::new(&parts);
    let reads = reader.reads.clone();
    let mut items = dotenvy::from_read_iter(reader);
    for (item, part) in [("DA=\n", 2), ("DB=\n", 3), ("DC=1", 3), ("DD=2", 4)] {
        assert_eq!(
            (&tell(items.next().unwrap())[..], reads.get()),
            (item, part)
        );
    }
}

#[test]
fn a_long_statement_takes_few_reads() {
    let file = format!("DA='{}'\n", "x\n".repeat(500_000));
    let mut reader = Counted {
        rest: file.as_bytes(),
        reads: 0,
    };
    let (_, value) = dotenvy::from_read_iter(&mut reader)
        .next()
        .unwrap()
        .unwrap();
    assert_eq!(value.len(), 1_000_000);
    assert!(reader.reads < 20, "{} reads", reader.reads);
}

/// A reader of one long statement, which then counts more bytes than there is room for, and ends.
struct Miscounting(usize);

impl Read for Miscounting {
    fn read(&mut self, buffer: &mut [u8]) -> io::Result<usize> {
        self.0 += 1;
        if self.0 > 4 {
            return Ok(0);
        }
        let room = buffer.len();
        buffer.fill(b'x');
        match self.0 {
            1 => buffer[..4].copy_from_slice(b"DA='"),
            3 => buffer[room - 2..].copy_from_slice(b"'\n"),
            _ => {}
        }
        Ok(room + usize::from(self.0 > 3))
    }
}

#[test]
fn a_reader_that_counts_more_than_there_is_room_for() {
    let mut items = dotenvy::from_read_iter(Miscounting(0));
    let (_, value) = items.next().unwrap().unwrap();
    assert_eq!(value.len(), 4 * 8192 - 6);
    let next = panic::catch_unwind(panic::AssertUnwindSafe(|| items.next()));
    assert!(next.is_err(), "{next:?}");
}

#[test]
fn a_socket_gives_an_item_when_its_line_is_there() {
    let _folder = Folder::new("socket");
    let (mut ours, theirs) = UnixStream::pair().unwrap();
    theirs
        .set_read_timeout(Some(Duration::from_secs(5)))
        .unwrap();
    let mut items = dotenvy::from_read_iter(theirs);
    ours.write_all(b"# to begin with\nDA=1\nDB='two\n").unwrap();
    assert_eq!(tell(items.next().unwrap()), "DA=1");
    ours.write_all(b"lines'\nDC=$DB\n").unwrap();
    assert_eq!(tell(items.next().unwrap()), "DB=two\nlines");
    assert_eq!(tell(items.next().unwrap()), "DC=two\nlines");
    ours.write_all(b"DD=4").unwrap();
    drop(ours);
    assert_eq!(tell(items.next().unwrap()), "DD=4");
    assert!(items.next().is_none());
}

#[test]
fn how_the_bytes_are_cut_changes_nothing() {
    let _folder = Folder::new("cut");
    let long = format!(
        "DA='{}'\nDB=\"${{DA}}\"\nDC=$DB#\n",
        "x\n# y\n".repeat(5000)
    );
    let files: [&[u8]; 12] = [
        b"",
        b"\n\r\n \n\t# c\n#'\n",
        b"DA=1\r\nDB=\"a\r\nb\"\r\nDC='c\n\n'\n",
        b"DA=1 # '\nDB=2 #\nDC=#'\nDD=4\n'\nDE=5",
        b"DA=\xc3\xa9\nDB=\xff\nDC='a\n\xff\nDD=4\n",
        b"DA=a\\\nDB=b\\ c\nDC=c\\",
        b"DA=1 ",
        b"DA=1  ",
        b"DA=\"a\\\"\nb\" # c\nDB=$DA\nDA=${DB}-\nDB=$DA\n",
        b"\xef\xbb\xbfDA=1\nexport DB\nexport DC=3\nexport=4\n",
        b"DA=x y\nDB=\\f\nDC=${\nDD=\"$DA\"\nDA.B=1\n",
        long.as_bytes(),
    ];
    for file in files {
        for dialect in [Dialect::V15, Dialect::Next] {
            let whole = told(Iter::with_dialect(file, dialect));
            for length in [1, 2, 3, 7, 100, 8192] {
                if file.len() / length > 10_000 {
                    continue;
                }
                let cut = told(Iter::with_dialect(Parts::of_length(file, length), dialect));
                assert_eq!(cut, whole, "in parts of {length}");
            }
        }
    }
    assert_eq!(told(Iter::new(files[11]))[2].len(), 30_000 + 4);
}

#[test]
fn an_iterator_that_ended_reads_again() {
    let _folder = Folder::new("again");
    let mut items =
        dotenvy::from_read_iter(Parts::new(&[Ok("DA=1\n"), Ok(""), Ok("DB=$DA\n"), Ok("")]));
    assert_eq!(tell(items.next().unwrap()), "DA=1");
    assert!(items.next().is_none());
    assert_eq!(tell(items.next().unwrap()), "DB=1");
    assert!(items.next().is_none());
}

#[test]
fn an_open_line_ends_where_the_reader_does() {
    for open in ["DA='x", "DA=x\\", "DA=x "] {
        let reader = Parts::new(&[Ok(open), Ok(""), Ok("'\n")]);
        let reads = reader.reads.clone();
        let item = dotenvy::from_read_iter(reader).next().unwrap();
        assert_eq!(tell(item), format!("LineParse({open:?}, 5)"));
        assert_eq!(reads.get(), 2);
    }
    let parts = [Ok("DA='x"), Ok(""), Ok("y'\n")];
    let reader = Parts::new(&parts);
    let reads = reader.reads.clone();
    let mut items = dotenvy::from_read_iter(reader);
    assert_eq!(tell(items.next().unwrap()), "LineParse(\"DA='x\", 5)");
    assert_eq!(reads.get(), 2);
    assert_eq!(tell(items.next().unwrap()), "LineParse(\"y'\\n\", 3)");
    assert!(items.next().is_none());
}

#[test]
fn a_name_means_what_the_variable_is_at_its_item() {
    let _folder = Folder::new("at-its-item");
    let mut items = dotenvy::from_read_iter(&b"DA=${DX}\nDB=$DX\nDX=file\nDC=$DX\nDD=${DX}\n"[..]);
    env::set_var("DX", "one");
    assert_eq!(tell(items.next().unwrap()), "DA=one");
    env::set_var("DX", "two");
    assert_eq!(tell(items.next().unwrap()), "DB=two");
    items.next().unwrap().unwrap();
    env::set_var("DX", "three");
    assert_eq!(tell(items.next().unwrap()), "DC=three");
    env::remove_var("DX");
    assert_eq!(tell(items.next().unwrap()), "DD=file");
}

#[test]
fn a_name_means_the_last_value_of_the_file() {
    let _folder = Folder::new("last-value");
    // Also values that no block can have, and those of other reads.
    let file = "DA=1\nDA=2 3\nDB=$DA\nDA=\"a\0b\\\"\\\\\\$c\n\"\nDC=<${DA}>\nDA=$DA$DA\nDE=${DA}\nDA=\nDF=x${DA}y\n";
    let wanted = [
        "DA=1",
        "LineParse(\"2 3\", 2)",
        "DB=1",
        "DA=a\0b\"\\$c\n",
        "DC=<a\0b\"\\$c\n>",
        "DA=a\0b\"\\$c\na\0b\"\\$c\n",
        "DE=a\0b\"\\$c\na\0b\"\\$c\n",
        "DA=",
        "DF=xy",
    ];
    assert_eq!(told(dotenvy::from_read_iter(file.as_bytes())), wanted);
    assert_eq!(
        told(Iter::new(Parts::of_length(file.as_bytes(), 5))),
        wanted
    );
}

/// Variables of every kind of name. Some of the names no folder removes.
const NAMES: [(&str, &str); 8] = [
    ("Dé½", "1"),
    ("D B", "2"),
    ("D'\"\\$#'", "3"),
    ("D_B", "4"),
    ("DA", "5"),
    ("D\nB", "6"),
    ("D.B", "7"),
    // A letter that is new in Unicode 17.
    ("D\u{1e6c0}", "8"),
];

/// The items of a file in a dialect, while there are these variables.
fn told_with_names(file: &str, dialect: Dialect) -> Vec<String> {
    for (name, value) in NAMES {
        env::set_var(name, value);
    }
    let items = told(Iter::with_dialect(file.as_bytes(), dialect));
    for (name, _) in NAMES {
        env::remove_var(name);
    }
    items
}

#[test]
fn names_of_every_kind() {
    let _folder = Folder::new("names");
    let rows = [
        ("K=$Dé½.", "K=1."),
        ("K=${D B}", "K=2"),
        ("K=${D'\"\\$#'}", "K=3"),
        ("K=${D_B}", "K=4"),
        ("K=$D_B", "K=_B"),
        ("K=$DA_B", "K=5_B"),
        ("K=$DA$DA", "K=55"),
        ("K=\"${D\nB}\"", "K=6"),
        ("K=\"${DA}\"", "K=5"),
        ("K=${D.B}", "K=7"),
        ("K=$D.B", "K=.B"),
        ("K=$", "K="),
        ("K=${}", "K="),
        ("K=${=}", "K="),
        ("K=${\0}", "K="),
        ("K=${DA", "LineParse(\"${DA\", 3)"),
        ("K=\\$DA'$DA'$DA", "K=$DA$DA5"),
        ("K=${DA}${D_B}${}}", "K=54}"),
        ("K=$DA\u{2192}x", "K=5\u{2192}x"),
        ("K=$D\u{1e6c0}.", "K=8."),
        ("K=$D\u{1e6c0}_B", "K=8_B"),
        ("K=\\${DA}${D_B}", "K=${DA}4"),
        ("K=$D1$DA", "K=5"),
    ];
    let file: String = rows.iter().map(|(line, _)| format!("{line}\n")).collect();
    let wanted = rows.map(|(_, item)| item);
    assert_eq!(told_with_names(&file, Dialect::V15), wanted);
    for (line, item) in rows {
        assert_eq!(told_with_names(line, Dialect::V15), [item], "{line}");
    }
}

#[test]
fn names_after_many_braces() {
    let _folder = Folder::new("names-braces");
    let braces = "${".repeat(100);
    env::set_var("D${A", "1");
    env::set_var(&braces, "2");
    env::set_var("DA", "3");
    for (file, item) in [
        ("K=<${D${A}>".into(), "K=<1>".into()),
        (format!("K='{braces}'${{D${{A}}"), format!("K={braces}1")),
        (format!("K='{braces}'${{DA}}"), format!("K={braces}3")),
        (format!("K=${{{braces}}}${{DA}}"), "K=23".into()),
        (format!("K=\\${{{braces}}}"), "K=${".into()),
        (
            format!("K='{braces}}}'${{D${{A}}"),
            format!("K={braces}}}1"),
        ),
    ] {
        assert_eq!(told(Iter::new(file.as_bytes())), [item], "{file}");
    }
    env::remove_var(&braces);
}

#[test]
fn names_in_the_second_dialect() {
    let _folder = Folder::new("names-next");
    let file = "K=$D_B\nK=\"$DA\"\nK=$DA_B\nK=$DA.\nK=$Dé½_\n";
    let items = told_with_names(file, Dialect::Next);
    assert_eq!(items, ["K=4", "K=5", "K=", "K=5.", "K="]);
    assert_eq!(told_with_names("K=\"$DA\"", Dialect::Next), ["K=5"]);
}

fn not_text() -> OsString {
    OsString::from_vec(b"\xff\xfe".to_vec())
}

#[test]
fn a_variable_that_is_no_text_is_replaced() {
    let _folder = Folder::new("no-text");
    env::set_var("DA", not_text());
    env::set_var("DZ", not_text());
    dotenvy::from_read(&b"DA=1\nDB=<$DA$DZ>\n"[..]).unwrap();
    assert_eq!(
        (value("DA"), value("DB")),
        (Some("1".into()), Some("<1>".into()))
    );
    assert_eq!(env::var_os("DZ"), Some(not_text()));

    env::set_var("DA", not_text());
    let mut items = Iter::new(&b"D0=0\nDA=2\n"[..]);
    items.next().unwrap().unwrap();
    items.load().unwrap();
    assert_eq!(value("DA"), Some("2".into()));
    assert_eq!(
        told(dotenvy::from_read_iter(&b"DZ=3\nDB=$DZ\n"[..])),
        ["DZ=3", "DB=3"]
    );
    dotenvy::from_read_override(&b"DA=4\n"[..]).unwrap();
    assert_eq!(env::var_os("DZ"), Some(not_text()));
}

#[test]
fn a_variable_that_is_empty_is_kept() {
    let _folder = Folder::new("empty");
    env::set_var("DA", "");
    dotenvy::from_read(&b"DA=1\nDB=<${DA}>\n"[..]).unwrap();
    assert_eq!(
        (value("DA"), value("DB")),
        (Some("".into()), Some("<>".into()))
    );
    let mut items = Iter::new(&b"D0=0\nDA=1\n"[..]);
    items.next().unwrap().unwrap();
    items.load().unwrap();
    assert_eq!(value("DA"), Some("".into()));
}

#[test]
fn a_value_with_a_nul_is_an_error_where_it_would_be_set() {
    let _folder = Folder::new("nul");
    let file = &b"DA=1\nDB=\"x\0y\"\nDC=3\n"[..];
    assert!(matches!(dotenvy::from_read(file), Err(Error::Nul(key)) if key == "DB"));
    assert_eq!((value("DA"), value("DC")), (Some("1".into()), None));

    let mut items = Iter::new(file);
    items.next().unwrap().unwrap();
    assert!(matches!(items.load(), Err(Error::Nul(key)) if key == "DB"));

    env::set_var("DB", "kept");
    dotenvy::from_read(file).unwrap();
    assert_eq!(
        (value("DB"), value("DC")),
        (Some("kept".into()), Some("3".into()))
    );
    assert!(matches!(dotenvy::from_read_override(file), Err(Error::Nul(key)) if key == "DB"));
    assert_eq!(value("DB"), Some("kept".into()));
    assert_eq!(told(Iter::new(file)), ["DA=1", "DB=x\0y", "DC=3"]);
}

#[test]
fn variables_are_set_in_the_order_of_the_file() {
    let _folder = Folder::new("order");
    dotenvy::from_read(&b"DZ=1\nDA=2\nDM=3\n"[..]).unwrap();
    let names: Vec<_> = env::vars()
        .map(|(name, _)| name)
        .filter(|name| ["DZ", "DA", "DM"].contains(&&name[..]))
        .collect();
    assert_eq!(names, ["DZ", "DA", "DM"]);
}

#[test]
fn a_load_drops_one_mark_where_it_begins() {
    let _folder = Folder::new("marks");
    for length in [1, 2, 3, 4, 100] {
        env::remove_var("DA");
        dotenvy::from_read(Parts::of_length("\u{feff}DA=1\n".as_bytes(), length)).unwrap();
        assert_eq!(value("DA"), Some("1".into()), "in parts of {length}");
        assert!(dotenvy::from_read(Parts::of_length(
            "\u{feff}\u{feff}DB=1\n".as_bytes(),
            length
        ))
        .is_err());
        assert!(dotenvy::from_read(Parts::of_length(b"\xef\xbb", length)).is_err());
        dotenvy::from_read(Parts::of_length(b"\xef\xbb\xbf", length)).unwrap();
        assert!(dotenvy::from_read(Parts::of_length(b"\xef\xbbDB=1\n", length)).is_err());
    }
    let file = "DA=1\n\u{feff}DB=2\nDC=3\n".as_bytes();
    for length in [1, 3, 100] {
        let mut items = Iter::new(Parts::of_length(file, length));
        items.next().unwrap().unwrap();
        items.load().unwrap();
        assert_eq!(
            (value("DB"), value("DC")),
            (Some("2".into()), Some("3".into()))
        );
        env::remove_var("DB");
        env::remove_var("DC");
    }
    // Not where another line comes first.
    let mut items = Iter::new("DA=1\n\n\u{feff}DB=2\n".as_bytes());
    items.next().unwrap().unwrap();
    assert!(matches!(items.load(), Err(Error::LineParse(..))));
    // Nor where items alone are asked for.
    assert_eq!(
        told(Iter::new("\u{feff}DA=1\n".as_bytes())),
        ["LineParse(\"\\u{feff}DA=1\", 0)"]
    );
    // A read that fails before the mark is known.
    assert!(dotenvy::from_read(Parts::new(&[Err(ErrorKind::TimedOut), Ok("DE=1\n")])).is_err());
    assert_eq!(value("DE"), None);
}

#[test]
fn items_have_lines() {
    let _folder = Folder::new("lines");
    let parts = [
        Ok("# c\n\nDA=1\nDB='x\ny'\n"),
        Ok("DC=x y\n\n"),
        Ok("DD='\n"),
        Err(ErrorKind::TimedOut),
        Ok("DE=5\n\nDF=$DE"),
    ];
    let mut items = Iter::new(Parts::new(&parts));
    assert_eq!((items.first_line(), items.last_line()), (None, None));
    let mut lines = Vec::new();
    while let Some(item) = items.next() {
        lines.push((item.is_ok(), items.first_line(), items.last_line()));
    }
    assert_eq!(
        lines,
        [
            (true, Some(3), Some(3)),
            (true, Some(4), Some(5)),
            (false, Some(6), Some(6)),
            (false, None, None),
            (true, Some(9), Some(9)),
            (true, Some(11), Some(11)),
        ]
    );
}

#[test]
fn a_line_that_is_not_utf8_is_an_error_of_the_standard_library() {
    let folder = Folder::new("not-utf8");
    let path = folder.write("a.env", b"DA=1\nDB=\xff\n");
    let ours = dotenvy::from_path(&path).unwrap_err();
    let theirs = fs::read_to_string(&path).unwrap_err();
    assert_eq!(
        (ours.to_string(), format!("{ours:?}")),
        (theirs.to_string(), format!("Io({theirs:?})"))
    );
}
