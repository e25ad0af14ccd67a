//! The first use of `vars` loads `.env`. This is one test, since it is the first use in its process.

mod common;

use common::Folder;
use dotenvy::Error;
use std::env;

#[test]
fn vars_loads_the_file_and_keeps_what_is_there() {
    let folder = Folder::new("first-vars");
    folder.write(".env", "DA=file\nDB=2\nDC=x y\nDD=4\n");
    env::set_var("DA", "there");
    let mut vars: Vec<_> = dotenvy::vars()
        .filter(|(name, _)| ["DA", "DB", "DC", "DD"].contains(&&name[..]))
        .collect();
    vars.sort();
    assert_eq!(
        vars,
        [("DA".into(), "there".into()), ("DB".into(), "2".into())]
    );
    // It is not tried again.
    folder.write(".env", "DD=4\n");
    assert!(matches!(
        dotenvy::var("DD"),
        Err(Error::EnvVar(env::VarError::NotPresent))
    ));
    assert_eq!(dotenvy::vars().filter(|(name, _)| name == "DD").count(), 0);
}
