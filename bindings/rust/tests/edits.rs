//! The edits, of bytes and of files.

use dotenvy::edit::{self, Dialect, Error, How, Reason, Unportable, Warning};
use std::os::unix::fs::{symlink, MetadataExt, PermissionsExt};
use std::path::{Path, PathBuf};
use std::{env, fs, io, process};

const HOW: How = How {
    dialect: Dialect::V15,
    portable: false,
};

const PORTABLE: How = How {
    dialect: Dialect::V15,
    portable: true,
};

/// A folder, which is removed with what is in it.
struct Folder(PathBuf);

impl Folder {
    fn new(name: &str) -> Folder {
        let path = env::temp_dir().join(format!("dotenvy-edit-{}-{name}", process::id()));
        fs::create_dir_all(&path).unwrap();
        Folder(path.canonicalize().unwrap())
    }

    fn write(&self, name: &str, text: &str) -> PathBuf {
        let path = self.0.join(name);
        fs::write(&path, text).unwrap();
        path
    }

    fn names(&self) -> Vec<String> {
        let entries = fs::read_dir(&self.0).unwrap();
        let mut names: Vec<_> = entries
            .map(|entry| entry.unwrap().file_name().into_string().unwrap())
            .collect();
        names.sort();
        names
    }
}

impl Drop for Folder {
    fn drop(&mut self) {
        let _ = fs::remove_dir_all(&self.0);
    }
}

fn text_of(path: &Path) -> String {
    fs::read_to_string(path).unwrap()
}

/// The new text of a file, and its warnings.
fn edited(outcome: Result<edit::Edited, Error>) -> (String, Vec<Warning>) {
    let edited = outcome.unwrap();
    (String::from_utf8(edited.bytes).unwrap(), edited.warnings)
}

/// Why an edit is refused, and at which line.
fn refusal<T>(outcome: Result<T, Error>) -> (Reason, u64) {
    match outcome {
        Err(Error::Refused { reason, line }) => (reason, line),
        Err(Error::Io(error)) => panic!("{error}"),
        Ok(_) => panic!("it is not refused"),
        Err(_) => panic!("there is no other error"),
    }
}

#[test]
fn what_a_set_leaves() {
    let rows = [
        ("A=1\n", "2", "A=2\n"),
        ("A=\"1\"\n", "2", "A=\"2\"\n"),
        ("A=1\n", "two words", "A='two words'\n"),
        ("A=1\n", "it's \"x\"", "A=\"it's \\\"x\\\"\"\n"),
        ("A=1 # c\n", "", "A= # c\n"),
        (
            "  export A = 1   # port\nB=2\n",
            "2",
            "  export A = 2   # port\nB=2\n",
        ),
        ("A=#fff\n", "#eee", "A='#eee' #fff\n"),
        ("A=1\r\nB=2\r\n", "2", "A=2\r\nB=2\r\n"),
        ("B=1\r\nC=2", "3", "B=1\r\nC=2\r\nA=3\r\n"),
        ("", "1", "A=1\n"),
        ("\u{feff}A=1\n", "2", "\u{feff}A=2\n"),
        ("A=two words # c\n", "x", "A=x # c\n"),
        ("A=1\n", "\u{e9}\u{1f511}", "A='\u{e9}\u{1f511}'\n"),
    ];
    for (before, value, after) in rows {
        let found = edited(edit::set(before.as_bytes(), "A", value, HOW));
        assert_eq!(found, (after.to_owned(), Vec::new()), "{before:?}");
    }
    let found = edit::set(b"\xff\nA=1\n", "A", "2", HOW).unwrap();
    assert_eq!(found.bytes, b"\xff\nA=2\n");
    assert_eq!(found.warnings, [Warning::StopsBefore { line: 1 }]);
}

#[test]
fn what_an_unset_leaves() {
    let rows = [
        ("# port\nA=1 # c\nB=2\n", "# port\nB=2\n"),
        ("A=1", ""),
        ("A=1\n\u{feff}B=2\n", "\n\u{feff}B=2\n"),
    ];
    for (before, after) in rows {
        let found = edited(edit::unset(before.as_bytes(), "A", Dialect::V15));
        assert_eq!(found, (after.to_owned(), Vec::new()), "{before:?}");
    }
    assert_eq!(
        refusal(edit::unset(b"B=1\n", "A", Dialect::V15)),
        (Reason::Absent, 0)
    );
}

#[test]
fn each_warning() {
    let (text, warnings) = edited(edit::set(b"-\nA=1\nB=$A\nA=2\nA='x\ny'\n", "A", "$x", HOW));
    assert_eq!(text, "-\nA='$x'\nB=$A\n");
    assert_eq!(
        warnings,
        [
            Warning::Dollar,
            Warning::StopsBefore { line: 1 },
            Warning::Mentions {
                name: "B".into(),
                line: 3
            },
            Warning::Removed { first: 4, last: 4 },
            Warning::Removed { first: 5, last: 6 },
        ]
    );
}

#[test]
fn dialects() {
    let next = How {
        dialect: Dialect::Next,
        ..How::default()
    };
    let file = b"A=1\nB=$A_B\n";
    assert_eq!(edited(edit::set(file, "A", "2", next)).1, []);
    assert_eq!(edited(edit::set(file, "A", "2", HOW)).1.len(), 1);
    assert_eq!(edited(edit::unset(file, "A", Dialect::Next)).1, []);
    assert_eq!(edited(edit::unset(file, "A", Dialect::V15)).1.len(), 1);
}

/// A file, a key and a value, how it is set, and why that is refused, with the line.
type Refused = (&'static [u8], &'static str, &'static str, How, Reason, u64);

const REFUSED: [Refused; 15] = [
    (b"", "1A", "2", HOW, Reason::NoKey, 0),
    (b"", "A", "x\0y", HOW, Reason::Nul, 0),
    (b"B=1\nC='x\n", "A", "1", HOW, Reason::QuoteOpen, 2),
    (b"B=1\nC=x\\", "A", "1", HOW, Reason::EndOpen, 2),
    (b"A=\xff\n", "A", "1", HOW, Reason::Unreadable, 1),
    (
        b"B=1\nA=$B  # it's\nC=it's\n",
        "A",
        "v",
        HOW,
        Reason::LongComment,
        2,
    ),
    (
        b"\xef\xbb\xbfA=1\n",
        "A",
        "2",
        PORTABLE,
        Reason::Unportable(Unportable::Mark),
        1,
    ),
    (
        b"",
        "A",
        "x\ry",
        PORTABLE,
        Reason::Unportable(Unportable::CarriageReturn),
        0,
    ),
    (
        b"",
        "A",
        "it's $5",
        PORTABLE,
        Reason::Unportable(Unportable::Apostrophe),
        0,
    ),
    (
        b"",
        "A",
        "x\n$y",
        PORTABLE,
        Reason::Unportable(Unportable::LineFeed),
        0,
    ),
    (
        b"",
        "A",
        "a\\\\b",
        PORTABLE,
        Reason::Unportable(Unportable::Backslashes),
        0,
    ),
    (
        b"",
        "A",
        "a\\",
        PORTABLE,
        Reason::Unportable(Unportable::LastBackslash),
        0,
    ),
    (
        b"",
        "A",
        "${B}",
        PORTABLE,
        Reason::Unportable(Unportable::Substitution),
        0,
    ),
    (
        b"A='v' # 'q'\n",
        "A",
        "a\"b c",
        PORTABLE,
        Reason::Unportable(Unportable::Comment),
        1,
    ),
    (
        b"A='v'\t# 'q'\n",
        "A",
        "a\"b c",
        PORTABLE,
        Reason::Unportable(Unportable::WhiteSpace),
        1,
    ),
];

#[test]
fn each_reason() {
    for (file, key, value, how, reason, line) in REFUSED {
        assert_eq!(refusal(edit::set(file, key, value, how)), (reason, line));
    }
}

#[test]
fn texts_of_errors() {
    let error = edit::set(b"B=1\nC=x\\", "A", "1", HOW).unwrap_err();
    assert_eq!(
        error.to_string(),
        "line 2: an open end, so nothing can be appended; end it with a line feed"
    );
    let error = edit::set(b"", "A", "x\ry", PORTABLE).unwrap_err();
    assert_eq!(
        error.to_string(),
        "the value has no portable form, since it has a carriage return"
    );
    let error = edit::set_in_file("no such folder/a.env", "A", "1", HOW).unwrap_err();
    assert!(matches!(error, Error::Io(ref error) if error.kind() == io::ErrorKind::NotFound));
}

#[test]
fn a_file_is_replaced_with_its_permissions() {
    let folder = Folder::new("permissions");
    let path = folder.write("a.env", "A=1\nB=$A\n");
    for mode in [0o640, 0o600, 0o755] {
        fs::set_permissions(&path, fs::Permissions::from_mode(mode)).unwrap();
        let value = format!("{mode:o}");
        let warnings = edit::set_in_file(&path, "A", &value, HOW).unwrap();
        assert_eq!(warnings.len(), 1);
        assert_eq!(text_of(&path), format!("A={value}\nB=$A\n"));
        assert_eq!(fs::metadata(&path).unwrap().mode() & 0o7777, mode);
    }
    edit::unset_in_file(&path, "A", Dialect::V15).unwrap();
    assert_eq!(text_of(&path), "B=$A\n");
    assert_eq!(folder.names(), ["a.env"]);
}

#[test]
fn what_changes_nothing_writes_no_file() {
    let folder = Folder::new("same");
    let path = folder.write("a.env", "A='1'\n");
    let before = fs::metadata(&path).unwrap().ino();
    edit::set_in_file(&path, "A", "1", HOW).unwrap();
    let outcome = edit::unset_in_file(&path, "B", Dialect::V15);
    assert_eq!(refusal(outcome), (Reason::Absent, 0));
    assert_eq!(fs::metadata(&path).unwrap().ino(), before);
    edit::set_in_file(&path, "A", "2", HOW).unwrap();
    assert_ne!(fs::metadata(&path).unwrap().ino(), before);
    assert_eq!(text_of(&path), "A='2'\n");
}

#[test]
fn a_link_is_followed() {
    let folder = Folder::new("link");
    fs::create_dir(folder.0.join("folder")).unwrap();
    let file = folder.write("folder/real.env", "A=1\n");
    let link = folder.0.join("a.env");
    symlink("folder/real.env", &link).unwrap();
    edit::set_in_file(&link, "A", "2", HOW).unwrap();
    assert!(fs::symlink_metadata(&link).unwrap().is_symlink());
    assert_eq!(text_of(&file), "A=2\n");
    assert_eq!(folder.names(), ["a.env", "folder"]);
}

#[test]
fn what_is_no_file() {
    let folder = Folder::new("no-file");
    let error = edit::set_in_file(&folder.0, "A", "1", HOW).unwrap_err();
    assert!(matches!(error, Error::Io(ref error) if error.kind() == io::ErrorKind::InvalidInput));
    let error = edit::unset_in_file(folder.0.join("a.env"), "A", Dialect::V15).unwrap_err();
    assert!(matches!(error, Error::Io(ref error) if error.kind() == io::ErrorKind::NotFound));
    assert!(folder.names().is_empty());
}
