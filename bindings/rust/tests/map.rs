//! Loads into a map.

mod common;

use common::{Folder, Parts};
use dotenvy::{Dialect, EnvMap, Error, Iter, LayerError, Mode};
use std::ffi::OsString;
use std::io::{self, ErrorKind};
use std::os::unix::ffi::OsStringExt;
use std::process::Command;
use std::{env, error};

fn map(pairs: &[(&str, &str)]) -> EnvMap {
    let mut map = EnvMap::new();
    for (name, value) in pairs {
        map.set(name, value);
    }
    map
}

fn added(before: &[(&str, &str)], file: &str, mode: Mode) -> Result<EnvMap, LayerError> {
    let mut map = map(before);
    map.add(file.as_bytes(), mode, Dialect::V15)?;
    Ok(map)
}

#[test]
fn a_layer_keeps_or_overrides() {
    let before = [("DA", "old"), ("DZ", "")];
    let file = "\u{feff}DA=1\nDB=$DA\nDA=2\nDC=$DA\nDZ=z\n";
    let kept = map(&[("DA", "old"), ("DB", "old"), ("DC", "old"), ("DZ", "")]);
    assert_eq!(added(&before, file, Mode::Keep).unwrap(), kept);
    let overridden = map(&[("DA", "2"), ("DB", "1"), ("DC", "2"), ("DZ", "z")]);
    assert_eq!(added(&before, file, Mode::Override).unwrap(), overridden);
}

#[test]
fn the_process_is_left_alone() {
    let folder = Folder::new("map-process");
    folder.write(".env", "DA=file\nDB=<$DA>\n");
    env::set_var("DA", "there");
    env::set_var("DN", OsString::from_vec(b"\xff".to_vec()));
    let before: Vec<_> = env::vars_os().collect();
    let mut settings = EnvMap::from_process();
    assert_eq!(settings.len(), before.len() - 1);
    assert_eq!(settings.get("DN"), None);
    settings.add_file(".env", Mode::Keep, Dialect::V15).unwrap();
    assert_eq!(
        (settings.get("DA"), settings.get("DB")),
        (Some("there"), Some("<there>"))
    );
    settings
        .add_file(".env", Mode::Override, Dialect::V15)
        .unwrap();
    assert_eq!(
        (settings.get("DA"), settings.get("DB")),
        (Some("file"), Some("<file>"))
    );
    assert!(env::vars_os().eq(before), "a variable changed");
    env::remove_var("DN");
}

#[test]
fn a_layer_is_taken_whole_or_not_at_all() {
    for mode in [Mode::Keep, Mode::Override] {
        for file in ["DA=1\nDB=x y\n", "DA=1\nDB=\"x\0y\"\n"] {
            let mut map = map(&[("DA", "old")]);
            let before = map.clone();
            let error = map.add(file.as_bytes(), mode, Dialect::V15).unwrap_err();
            assert_eq!((error.line(), error.path()), (Some(2), None));
            assert_eq!(map, before);
        }
    }
    let mut map = map(&[("DA", "old")]);
    let reader = Parts::new(&[Ok("DA=1\n"), Err(ErrorKind::TimedOut)]);
    let error = map.add(reader, Mode::Override, Dialect::V15).unwrap_err();
    assert!(matches!(error.error(), Error::Io(error) if error.kind() == ErrorKind::TimedOut));
    assert_eq!((error.line(), map.get("DA")), (None, Some("old")));
}

#[test]
fn a_name_that_begins_with_an_equals_sign_is_left_out() {
    let _folder = Folder::new("map-equals");
    if env::var_os("MAP_EQUALS").is_none() {
        // No process can set such a variable for itself.
        let name = "a_name_that_begins_with_an_equals_sign_is_left_out";
        let mut child = Command::new(env::current_exe().unwrap());
        child.args(["--exact", name]).env("MAP_EQUALS", "1");
        let output = child.env("=DA", "1").output().unwrap();
        let text = String::from_utf8(output.stdout).unwrap();
        assert!(
            output.status.success() && text.contains("1 passed"),
            "{text}"
        );
        return;
    }
    assert!(env::vars_os().any(|(name, _)| name == "=DA"));
    let mut settings = EnvMap::from_process();
    let before = settings.clone();
    settings.add(&b""[..], Mode::Keep, Dialect::V15).unwrap();
    assert!(settings == before, "a variable changed");
}

fn line(before: &[(&str, &str)], file: &str, mode: Mode) -> Option<u64> {
    added(before, file, mode).unwrap_err().line()
}

#[test]
fn errors_have_lines() {
    for mode in [Mode::Keep, Mode::Override] {
        assert_eq!(
            line(&[], "\u{feff}DA=1\n\n# c\nDB='x\n\n' y\nDC=x y\n", mode),
            Some(4)
        );
        assert_eq!(line(&[], "DA=1\nDB='x\n\n", mode), Some(2));
        assert_eq!(line(&[], "\u{feff}#'\nDB=x y\nDC=\\f\n", mode), Some(2));
    }
    let error = EnvMap::new()
        .add(&b"\n\nDA=\xff\n"[..], Mode::Keep, Dialect::V15)
        .unwrap_err();
    assert_eq!(error.line(), Some(3));
    // What comes after an error takes no memory: the last value would have 2^43 bytes.
    let doubled: String = (1..=40)
        .map(|it| format!("D{it}=${{D{0}}}${{D{0}}}\n", it - 1))
        .collect();
    let file = "DA=x y\nD0=12345678\n".to_owned() + &doubled;
    assert_eq!(line(&[], &file, Mode::Keep), Some(1));
    // A NUL is an error where the value would be set.
    let file = "DB=\"\0\"\nDC=x y\n";
    assert_eq!(line(&[("DB", "")], file, Mode::Keep), Some(2));
    assert_eq!(line(&[("DB", "")], file, Mode::Override), Some(1));
    let file = "DA=1\nDA=\"\0\"\nDB=2\nDB=\"$DA\0\"\n";
    assert_eq!(line(&[], file, Mode::Override), Some(2));
    assert_eq!(added(&[], file, Mode::Keep).unwrap().get("DB"), Some("2"));
    let file = "DA=1\nDB=\"\0\"\nDC='\n'\nDC=\"\0\"\n";
    assert_eq!(line(&[], file, Mode::Keep), Some(2));
    assert_eq!(line(&[("DB", "")], file, Mode::Override), Some(2));
    assert_eq!(
        added(&[("DB", "")], file, Mode::Keep).unwrap().get("DC"),
        Some("\n")
    );
}

#[test]
fn an_error_names_its_file_and_line() {
    let folder = Folder::new("map-errors");
    let path = folder.write("a.env", "DA=1\nDB=x y\n");
    let mut settings = EnvMap::new();
    let error = settings
        .add_path("a.env", Mode::Keep, Dialect::V15)
        .unwrap_err();
    assert_eq!(
        error.to_string(),
        "a.env:2: Error parsing line: 'x y', error at line index: 2"
    );
    let error = settings
        .add_file("a.env", Mode::Keep, Dialect::V15)
        .unwrap_err();
    assert_eq!(error.path(), Some(&*path));
    assert!(!error.not_found());
    assert!(error::Error::source(&error)
        .unwrap()
        .to_string()
        .starts_with("Error parsing line"));
    assert!(matches!(error.into(), Error::LineParse(text, 2) if text == "x y"));
    assert!(settings.is_empty());
}

#[test]
fn an_error_names_what_it_has_of_them() {
    let _folder = Folder::new("map-errors-without");
    let mut settings = EnvMap::new();
    let error = settings
        .add(&b"DB=x y\n"[..], Mode::Keep, Dialect::V15)
        .unwrap_err();
    assert_eq!(
        error.to_string(),
        "1: Error parsing line: 'x y', error at line index: 2"
    );
    for error in [
        settings
            .add_path("b.env", Mode::Keep, Dialect::V15)
            .unwrap_err(),
        settings
            .add_file("b.env", Mode::Keep, Dialect::V15)
            .unwrap_err(),
    ] {
        assert!(error.not_found() && error.to_string().starts_with("b.env: "));
        assert_eq!((error.line(), error.path()), (None, Some("b.env".as_ref())));
    }
    assert!(settings.is_empty());
    let reader = Parts::new(&[Err(ErrorKind::PermissionDenied)]);
    let error = settings.add(reader, Mode::Keep, Dialect::V15).unwrap_err();
    assert_eq!(
        error.to_string(),
        io::Error::from(ErrorKind::PermissionDenied).to_string()
    );
}

#[test]
fn the_second_dialect() {
    let _folder = Folder::new("map-dialect");
    let file = "D_B=1\nDC=<$D_B>\n";
    let mut settings = EnvMap::new();
    settings
        .add(file.as_bytes(), Mode::Keep, Dialect::Next)
        .unwrap();
    assert_eq!(settings.get("DC"), Some("<1>"));
    settings
        .add(file.as_bytes(), Mode::Override, Dialect::V15)
        .unwrap();
    assert_eq!(settings.get("DC"), Some("<_B>"));
    // An error in one dialect alone, and its line.
    let file = "DA=1\nDB=\"$DA\"\n";
    let error = settings
        .add(file.as_bytes(), Mode::Keep, Dialect::V15)
        .unwrap_err();
    assert_eq!(error.line(), Some(2));
    let error = settings
        .add(
            (file.to_owned() + "DC=\\f\n").as_bytes(),
            Mode::Keep,
            Dialect::Next,
        )
        .unwrap_err();
    assert_eq!(error.line(), Some(3));
    Iter::with_dialect(&b"DA_B=1\nDC=$DA_B\n"[..], Dialect::Next)
        .load()
        .unwrap();
    assert_eq!(env::var("DC").as_deref(), Ok("1"));
    Iter::with_dialect(&b"DC=$DA_B$DA_B\n"[..], Dialect::Next)
        .load_override()
        .unwrap();
    assert_eq!(env::var("DC").as_deref(), Ok("11"));
}

#[test]
fn a_map_is_read_and_passed_on() {
    let settings = added(&[("DB", "2")], "DA=1\n", Mode::Keep).unwrap();
    assert_eq!(settings.var("DA").unwrap(), "1");
    assert!(matches!(
        settings.var("DC"),
        Err(Error::EnvVar(env::VarError::NotPresent))
    ));
    let pairs: Vec<_> = settings
        .iter()
        .map(|(name, value)| format!("{name}={value}"))
        .collect();
    assert_eq!(pairs, ["DA=1", "DB=2"]);
    assert_eq!((&settings).into_iter().count(), 2);
    let output = Command::new("/usr/bin/env")
        .env_clear()
        .envs(&settings)
        .output()
        .unwrap();
    assert_eq!(String::from_utf8(output.stdout).unwrap(), "DA=1\nDB=2\n");
    let owned: Vec<(String, String)> = settings.into_iter().collect();
    assert_eq!(owned.len(), 2);
}

#[test]
fn no_environment_has_such_a_variable() {
    for (name, value) in [("", "1"), ("A=", "1"), ("A\0", "1"), ("A", "secret\0")] {
        let set = std::panic::catch_unwind(|| EnvMap::new().set(name, value));
        let text = set.unwrap_err().downcast::<String>().unwrap();
        assert!(text.contains(&format!("{name:?}")), "{text}");
        assert!(!text.contains("secret"), "{text}");
    }
    assert_eq!(map(&[("a b", "=\n")]).get("a b"), Some("=\n"));
}

#[test]
fn the_library_says_its_version() {
    let version = dotenvy::library_version();
    let numbers: Vec<u32> = version
        .split('.')
        .map(|number| number.parse().unwrap())
        .collect();
    assert_eq!(numbers.len(), 3);
    assert!(numbers[0] >= 1 && env!("CARGO_PKG_VERSION") == "0.15.7");
}
