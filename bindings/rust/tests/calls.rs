//! The calls on files, readers and the process.

mod common;

use common::{value, Folder};
use dotenvy::{Error, Iter};
use std::path::Path;
use std::{env, fs, io};

#[test]
fn a_variable_that_exists_keeps_its_value() {
    let folder = Folder::new("keeps");
    let path = folder.write("a.env", "DA=1\nDB=$DA\n");
    env::set_var("DA", "9");
    dotenvy::from_path(&path).unwrap();
    assert_eq!(
        (value("DA"), value("DB")),
        (Some("9".into()), Some("9".into()))
    );
}

#[test]
fn an_override_replaces_it() {
    let folder = Folder::new("overrides");
    let path = folder.write("a.env", "DA=1\nDA=2\nDB=$DA\n");
    env::set_var("DA", "9");
    dotenvy::from_path_override(&path).unwrap();
    assert_eq!(
        (value("DA"), value("DB")),
        (Some("2".into()), Some("2".into()))
    );
    dotenvy::from_read_override(&b"DA=3\n"[..]).unwrap();
    assert_eq!(value("DA"), Some("3".into()));
    dotenvy::from_read_override(&b"DA=\n"[..]).unwrap();
    assert_eq!(value("DA"), Some("".into()));
}

#[test]
fn a_file_is_searched_for_upwards() {
    let folder = Folder::new("searches");
    let path = folder.write(".env", "DA=1\n");
    let named = folder.write("service.env", "DB=2\nDA=2\n");
    fs::create_dir_all("x/y/.env").unwrap();
    env::set_current_dir("x/y").unwrap();
    assert_eq!(dotenvy::dotenv().unwrap(), path);
    assert_eq!(dotenvy::from_filename("service.env").unwrap(), named);
    assert_eq!(
        (value("DA"), value("DB")),
        (Some("1".into()), Some("2".into()))
    );
    assert_eq!(
        dotenvy::from_filename_override("service.env").unwrap(),
        named
    );
    assert_eq!(value("DA"), Some("2".into()));
    assert_eq!(dotenvy::dotenv_override().unwrap(), path);
    assert_eq!(value("DA"), Some("1".into()));
    assert_eq!(dotenvy::dotenv_iter().unwrap().count(), 1);
    assert_eq!(
        dotenvy::from_filename_iter("service.env").unwrap().count(),
        2
    );
    env::set_current_dir(&folder.path).unwrap();
}

#[test]
fn a_file_that_is_not_there() {
    let _folder = Folder::new("absent");
    let missing = Path::new("no such file.env");
    assert!(dotenvy::from_path(missing).unwrap_err().not_found());
    assert!(dotenvy::from_filename(missing).unwrap_err().not_found());
    assert!(dotenvy::from_path_iter(missing).is_err_and(|error| error.not_found()));
    assert!(!Error::Io(io::ErrorKind::PermissionDenied.into()).not_found());
    assert!(!Error::EnvVar(env::VarError::NotPresent).not_found());
}

#[test]
fn errors_and_what_is_before_them() {
    let _folder = Folder::new("errors");
    let error = dotenvy::from_read(&b"DA=1\nDB=x y\nDC=3\n"[..]).unwrap_err();
    assert!(matches!(&error, Error::LineParse(text, 2) if text == "x y"));
    assert_eq!(
        error.to_string(),
        "Error parsing line: 'x y', error at line index: 2"
    );
    assert!(!error.not_found());
    assert_eq!(
        (value("DA"), value("DB"), value("DC")),
        (Some("1".into()), None, None)
    );

    let error = dotenvy::from_read(&b"DD=\xff\n"[..]).unwrap_err();
    assert!(matches!(&error, Error::Io(error) if error.kind() == io::ErrorKind::InvalidData));
    let error = dotenvy::from_read(&b"DD=\"x\0y\"\n"[..]).unwrap_err();
    assert!(matches!(&error, Error::Nul(key) if key == "DD"));
    assert_eq!(error.to_string(), "value of 'DD' contains a NUL");
}

#[test]
fn items_and_the_errors_among_them() {
    let _folder = Folder::new("items");
    let items: Vec<_> = dotenvy::from_read_iter(&b"DA=1\nDB=x y\nDC=$DA\n"[..]).collect();
    assert_eq!(items.len(), 3);
    assert_eq!(
        items[0].as_ref().unwrap(),
        &("DA".to_owned(), "1".to_owned())
    );
    assert!(matches!(&items[1], Err(Error::LineParse(text, 2)) if text == "x y"));
    assert_eq!(
        items[2].as_ref().unwrap(),
        &("DC".to_owned(), "1".to_owned())
    );
    assert_eq!(value("DA"), None);
}

#[test]
fn a_load_of_what_is_left() {
    let _folder = Folder::new("left");
    let mut items = Iter::new(&b"DA=1\nDB=2\nDC=3\nDD=x y\n"[..]);
    assert_eq!(items.next().unwrap().unwrap().0, "DA");
    env::set_var("DC", "9");
    assert!(matches!(items.load(), Err(Error::LineParse(..))));
    assert_eq!(
        (value("DA"), value("DB"), value("DC")),
        (None, Some("2".into()), Some("9".into()))
    );

    let mut items = Iter::new(&b"DA=1\nDC=3\n"[..]);
    items.next().unwrap().unwrap();
    items.load_override().unwrap();
    assert_eq!((value("DA"), value("DC")), (None, Some("3".into())));
}

#[test]
fn a_byte_order_mark_is_dropped_by_a_load_alone() {
    let _folder = Folder::new("mark");
    dotenvy::from_read("\u{feff}DA=1\n".as_bytes()).unwrap();
    assert_eq!(value("DA"), Some("1".into()));
    assert!(dotenvy::from_read_iter("\u{feff}DA=1\n".as_bytes())
        .next()
        .unwrap()
        .is_err());
}
