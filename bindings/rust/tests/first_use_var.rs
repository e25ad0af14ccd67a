//! The first use of `var` loads `.env`. This is one test, since it is the first use in its process.

mod common;

use common::Folder;
use dotenvy::Error;
use std::env;

#[test]
fn var_loads_the_file_and_keeps_what_is_there() {
    let folder = Folder::new("first-var");
    folder.write(".env", "DA=file\nDB=2\n");
    env::set_var("DA", "there");
    assert_eq!(dotenvy::var("DB").unwrap(), "2");
    assert_eq!(dotenvy::var("DA").unwrap(), "there");
    folder.write(".env", "DC=3\n");
    assert!(matches!(dotenvy::var("DC"), Err(Error::EnvVar(_))));
    assert!(dotenvy::vars().any(|(name, value)| (&name[..], &value[..]) == ("DB", "2")));
}
