//! The program, which the feature `cli` builds.
#![cfg(feature = "cli")]

use std::os::unix::fs::PermissionsExt;
use std::path::{Path, PathBuf};
use std::process::{Command, Output};
use std::{env, fs, process};

struct Folder(PathBuf);

impl Folder {
    fn new(name: &str) -> Folder {
        let path = env::temp_dir().join(format!("dotenvy-program-{}-{name}", process::id()));
        fs::create_dir_all(path.join("below")).unwrap();
        fs::write(path.join(".env"), "DA=1\nDB=<$DA>\nDC=file\n").unwrap();
        fs::write(path.join("other.env"), "DA=2\n").unwrap();
        Folder(path)
    }

    fn run(&self, arguments: &[&str]) -> Output {
        let mut command = Command::new(env!("CARGO_BIN_EXE_dotenvy"));
        command.args(arguments).current_dir(self.0.join("below"));
        command.env_remove("DA").env_remove("DB").env("DC", "there");
        command.output().unwrap()
    }
}

impl Drop for Folder {
    fn drop(&mut self) {
        let _ = fs::remove_dir_all(&self.0);
    }
}

fn text(bytes: &[u8]) -> &str {
    std::str::from_utf8(bytes).unwrap()
}

const SHOW: &str = "echo $DA $DB $DC \"$@\"; exit 7";

#[test]
fn it_runs_a_command_with_the_variables() {
    let folder = Folder::new("runs");
    let run = folder.run(&["sh", "-c", SHOW, "sh", "-f", "--help", "x y"]);
    assert_eq!(text(&run.stdout), "1 <1> there -f --help x y\n");
    assert_eq!((run.status.code(), text(&run.stderr)), (Some(7), ""));
    assert_eq!(text(&folder.run(&["--", "printenv", "DA"]).stdout), "1\n");
}

#[test]
fn it_loads_the_file_of_a_name() {
    let folder = Folder::new("file");
    for option in [
        &["-f", "other.env"][..],
        &["--file", "other.env"],
        &["--file=other.env"],
        &["-fother.env"],
        &["-f=other.env"],
    ] {
        let run = folder.run(&[option, &["printenv", "DA"]].concat());
        assert_eq!(text(&run.stdout), "2\n", "{option:?}");
    }
    let path = folder.0.join("other.env");
    let run = folder.run(&["-f", path.to_str().unwrap(), "printenv", "DA"]);
    assert_eq!(text(&run.stdout), "2\n");
}

#[test]
fn what_fails() {
    let folder = Folder::new("fails");
    let run = folder.run(&["-f", "missing.env", "true"]);
    assert_eq!(
        (run.status.code(), text(&run.stderr)),
        (
            Some(1),
            "error: failed to load environment: path not found\n"
        )
    );
    let run = folder.run(&["no such command"]);
    assert_eq!(run.status.code(), Some(1));
    assert!(text(&run.stderr).starts_with("fatal: "));
    fs::write(folder.0.join("below/.env"), "DA=x y\n").unwrap();
    let run = folder.run(&["true"]);
    assert_eq!(run.status.code(), Some(1));
    assert_eq!(
        text(&run.stderr),
        "error: failed to load environment: Error parsing line: 'x y', error at line index: 2\n"
    );
    for arguments in [
        &[][..],
        &["-f"],
        &["--file"],
        &["-f", "other.env"],
        &["--"],
        &["-x", "true"],
        &["--fil=a", "true"],
    ] {
        let run = folder.run(arguments);
        assert_eq!(
            (run.status.code(), text(&run.stdout)),
            (Some(2), ""),
            "{arguments:?}"
        );
        assert!(!run.stderr.is_empty());
    }
}

#[test]
fn help() {
    let folder = Folder::new("help");
    for option in ["-h", "--help"] {
        let run = folder.run(&[option]);
        assert_eq!((run.status.code(), text(&run.stderr)), (Some(0), ""));
        assert!(text(&run.stdout).contains("Usage: dotenvy [OPTIONS] <COMMAND> [ARGS]..."));
    }
}

#[test]
fn a_file_that_can_not_be_read() {
    let folder = Folder::new("denied");
    // Whoever opens it, there is nothing to read at its start.
    let run = folder.run(&["-f", "/proc/self/mem", "true"]);
    assert_eq!(
        (run.status.code(), text(&run.stderr)),
        (
            Some(1),
            "error: failed to load environment: Input/output error (os error 5)\n"
        )
    );
    let path: &Path = &folder.0.join("below/.env");
    fs::write(path, "DA=3\n").unwrap();
    fs::set_permissions(path, fs::Permissions::from_mode(0o000)).unwrap();
    if fs::read(path).is_err() {
        assert_eq!(folder.run(&["true"]).status.code(), Some(1));
    }
}
