//! What keeps the crate within Rust 1.56, its `rust-version`. `cargo clippy` tells calls that came later, and no tool
//! that is there tells what came later in the language.

use std::fs;
use std::path::{Path, PathBuf};

const TOP: &str = env!("CARGO_MANIFEST_DIR");

/// The code of a crate: what is built for whoever uses it.
fn files() -> Vec<PathBuf> {
    let mut files = vec![Path::new(TOP).join("build.rs")];
    for folder in ["src", "src/bin"] {
        let entries = fs::read_dir(Path::new(TOP).join(folder)).unwrap();
        files.extend(entries.map(|entry| entry.unwrap().path()));
    }
    files.retain(|path| path.is_file());
    files
}

/// The texts in quotes of a line of code. Those in its comments count, too.
fn texts(line: &str) -> Vec<String> {
    let line = line
        .replace("\\\\", "")
        .replace("\\\"", "")
        .replace("\\u{", "");
    let parts = line.split('"').skip(1).step_by(2);
    parts.map(str::to_owned).collect()
}

/// Whether a text that is a format has a name in braces, which Rust 1.58 reads first.
fn has_name(text: &str) -> bool {
    let plain = text.replace("{{", "").replace("}}", "");
    let mut openings = plain.split('{').skip(1);
    openings.any(|rest| rest.starts_with(|it: char| it.is_alphabetic() || it == '_'))
}

#[test]
fn formats_have_no_names() {
    assert!(has_name("x{name:?}") && has_name("{_a}{}") && !has_name("{}{:?}{0}{{name}}"));
    assert_eq!(texts("f(\"a\\\"{b}\", 'c', \"d\")"), ["a{b}", "d"]);
    let files = files();
    assert!(files.len() > 10, "{files:?}");
    for path in files {
        let source = fs::read_to_string(&path).unwrap();
        // What only the tests have, and examples, are for the Rust that tests it.
        let code = source.split("#[cfg(test)]").next().unwrap();
        for line in code.lines().filter(|it| !it.trim_start().starts_with("//")) {
            assert!(
                !texts(line).iter().any(|it| has_name(it)),
                "{path:?}: {line}"
            );
        }
    }
}
