//! What a statement says by now. A name in its value means what the process's environment has for it; if that has
//! nothing, the last value that the file gave it.

use crate::dialect::Dialect;
use crate::library::{self, Record};
use std::collections::{BTreeSet, HashMap};
use std::env;

/// How many names that have an opening brace in them are looked up one by one. Each look takes as long as its name.
const FEW: usize = 16;

/// The item of this statement, with the values that the file gave before. `None` if an allocation failed.
pub fn settled(
    statement: &str,
    values: &HashMap<String, String>,
    dialect: Dialect,
) -> Option<Record> {
    let (mut file, mut block) = (String::new(), Vec::new());
    for name in names(statement, dialect)? {
        if let Some(value) = variable(name) {
            library::push_entry(&mut block, name, &value);
        } else if let Some(value) = values.get(name) {
            file += &library::written(name, value)?;
        }
    }
    file += statement;
    library::items(file.as_bytes(), &block, dialect.option())?.pop()
}

// The value of a variable, if it is text.
fn variable(name: &str) -> Option<String> {
    // At other names `env::var` of an early Rust panics.
    if !library::is_name(name) {
        return None;
    }
    env::var(name).ok()
}

// The names that the value of a statement mentions; and others, since quotes and escapes are not looked at. `None` if
// an allocation failed.
fn names(statement: &str, dialect: Dialect) -> Option<BTreeSet<&str>> {
    let dollars = statement.match_indices('$');
    let rests = dollars.map(|(dollar, _)| &statement[dollar + 1..]);
    let runs: BTreeSet<_> = rests
        .filter(|rest| !rest.starts_with('{'))
        .map(run)
        .collect();
    let mut names = braced_names(statement);
    if !runs.is_empty() {
        names.append(&mut bare_names(&runs, dialect)?);
    }
    Some(names)
}

// The names that may be in braces: before a closing brace, what follows each opening one.
fn braced_names(statement: &str) -> BTreeSet<&str> {
    let (mut names, mut longer) = (BTreeSet::new(), Vec::new());
    let parts = statement.split_inclusive('}');
    for text in parts.filter_map(|part| part.strip_suffix('}')) {
        let mut found = text
            .rmatch_indices("${")
            .map(|(dollar, brace)| &text[dollar + brace.len()..]);
        names.extend(found.next());
        longer.extend(found);
    }
    // These have an opening brace in them. So no key of a file is one, and hardly a variable.
    if longer.len() > FEW {
        let variables = nested_variables();
        longer.retain(|name| variables.iter().any(|variable| variable == name));
    }
    names.extend(longer);
    names
}

// The names of variables that have an opening brace in them.
fn nested_variables() -> Vec<String> {
    let names = env::vars_os().filter_map(|(name, _)| name.into_string().ok());
    names.filter(|name| name.contains("${")).collect()
}

// The characters at the start of a text that may be a bare name in some dialect.
fn run(text: &str) -> &str {
    let ends = |it: char| it.is_ascii() && !it.is_ascii_alphanumeric() && it != '_';
    &text[..text.find(ends).unwrap_or(text.len())]
}

// The names with which these texts begin, which the library tells: it leaves a name out where it means nothing.
fn bare_names<'a>(runs: &BTreeSet<&'a str>, dialect: Dialect) -> Option<BTreeSet<&'a str>> {
    // Each line declares a key with a dot, which no bare name has.
    let lines = runs.iter().map(|run| format!("A.B=\"${}.\"\n", run));
    let file: String = lines.collect();
    let items = library::items(file.as_bytes(), b"", dialect.option())?;
    let names = runs.iter().copied().zip(&items);
    Some(
        names
            .map(|(run, item)| &run[..run.len() + 1 - item.text.len()])
            .collect(),
    )
}

#[cfg(test)]
mod tests {
    use super::*;

    #[test]
    fn names_that_are_mentioned() {
        let told = |statement, dialect| {
            let names = names(statement, dialect).expect("there is memory");
            names.into_iter().collect::<Vec<_>>()
        };
        let statement = "A=$B_C${D e}$\u{e9}\u{bd}-$$ ${F$_G${}}\\${H";
        let v15 = ["", "B", "D e", "F$_G${", "\u{e9}\u{bd}"];
        assert_eq!(told(statement, Dialect::V15), v15);
        let next = ["", "B_C", "D e", "F$_G${", "_G", "\u{e9}\u{bd}"];
        assert_eq!(told(statement, Dialect::Next), next);
        assert_eq!(told("A=B", Dialect::V15), [""; 0]);
    }

    #[test]
    fn a_statement_with_what_its_names_mean() {
        let values: HashMap<_, _> = ["'\"$A${A}\\\"", "\0\r\n \u{feff}\u{e9}#", "\\n$", ""]
            .iter()
            .enumerate()
            .map(|(number, value)| (format!("SETTLED_{}", number), value.to_string()))
            .collect();
        for dialect in [Dialect::V15, Dialect::Next] {
            for (name, value) in &values {
                let statement = format!("K=<${{{}}}>\n", name);
                let item = settled(&statement, &values, dialect).expect("there is memory");
                assert_eq!((item.key, item.text), ("K".into(), format!("<{value}>")));
            }
        }
    }
}
