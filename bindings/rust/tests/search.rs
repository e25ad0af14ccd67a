//! The search for a file by its name.

mod common;

use common::{value, Folder};
use dotenvy::Error;
use std::os::unix::net::UnixListener;
use std::{env, fs, io};

#[test]
fn a_look_that_fails_ends_the_search() {
    let folder = Folder::new("look");
    folder.write("file", "");
    fs::create_dir(folder.path.join("below")).unwrap();
    folder.write("below/file", "");
    env::set_current_dir("below").unwrap();
    let error = dotenvy::from_filename("file/.env").unwrap_err();
    assert!(matches!(&error, Error::Io(error) if error.kind() != io::ErrorKind::NotFound));
    assert!(!error.not_found());
    assert!(dotenvy::from_filename_iter("file/.env").is_err_and(|error| !error.not_found()));
    assert!(dotenvy::from_filename("a\0b").is_err_and(|error| !error.not_found()));
}

#[test]
fn what_is_no_regular_file_is_skipped() {
    let folder = Folder::new("socket");
    let path = folder.write(".env", "DA=1\n");
    fs::create_dir_all("a/b/.env").unwrap();
    let _socket = UnixListener::bind("a/.env").unwrap();
    env::set_current_dir("a/b").unwrap();
    assert_eq!(dotenvy::dotenv().unwrap(), path);
    assert_eq!(value("DA"), Some("1".into()));
}

#[test]
fn every_folder_above_is_looked_at() {
    let folder = Folder::new("deep");
    let path = folder.write("service.env", "DA=1\n");
    fs::create_dir_all("a/b/c/d/e/f").unwrap();
    env::set_current_dir("a/b/c/d/e/f").unwrap();
    env::set_var("DA", "0");
    assert_eq!(dotenvy::from_filename("service.env").unwrap(), path);
    assert_eq!(value("DA"), Some("0".into()));
    assert_eq!(
        dotenvy::from_filename_override("service.env").unwrap(),
        path
    );
    assert_eq!(value("DA"), Some("1".into()));
}

#[test]
fn an_override_counts_where_the_file_is_above() {
    let folder = Folder::new("above");
    let path = folder.write(".env", "DA=1\n");
    fs::create_dir_all("a").unwrap();
    env::set_current_dir("a").unwrap();
    env::set_var("DA", "0");
    assert_eq!(dotenvy::dotenv_override().unwrap(), path);
    assert_eq!(value("DA"), Some("1".into()));
}

#[test]
fn the_search_is_in_the_current_directory() {
    let folder = Folder::new("pwd");
    fs::create_dir_all("other").unwrap();
    folder.write("other/.env", "DA=other\n");
    let path = folder.write(".env", "DA=here\n");
    let before = env::var_os("PWD");
    env::set_var("PWD", folder.path.join("other"));
    let found = dotenvy::dotenv();
    match before {
        Some(before) => env::set_var("PWD", before),
        None => env::remove_var("PWD"),
    }
    assert_eq!(found.unwrap(), path);
    assert_eq!(value("DA"), Some("here".into()));
}
