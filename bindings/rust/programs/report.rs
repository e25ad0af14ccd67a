//! A tool that reads files as pairs and reports what is wrong with them. It sets nothing.

use dotenvy::Error;
use std::collections::BTreeMap;
use std::fs::File;
use std::{env, fmt, fs};

enum Trouble {
    Syntax { text: String, column: usize },
    Other(Error),
}

impl From<Error> for Trouble {
    fn from(error: Error) -> Self {
        match error {
            Error::LineParse(text, column) => Trouble::Syntax { text, column },
            other => Trouble::Other(other),
        }
    }
}

impl fmt::Display for Trouble {
    fn fmt(&self, f: &mut fmt::Formatter<'_>) -> fmt::Result {
        match self {
            Trouble::Syntax { text, column } => write!(f, "{text:?} at {column}"),
            Trouble::Other(error) => write!(f, "{error}"),
        }
    }
}

fn read(items: dotenvy::Iter<File>) -> (BTreeMap<String, String>, Vec<Trouble>) {
    let (mut pairs, mut troubles) = (BTreeMap::new(), Vec::new());
    for item in items {
        match item {
            Ok((key, value)) => drop(pairs.insert(key, value)),
            Err(error) => troubles.push(error.into()),
        }
    }
    (pairs, troubles)
}

const FILES: [(&str, &[u8]); 3] = [
    (
        "good.env",
        b"A=1\nB=\"${A}2\"\nC='multi\nline'\n\nexport D=x\\ y # c\n",
    ),
    (
        "bad.env",
        b"A=1\nB=two words\n1C=3\nD=\\q\nE=\xff\nF='open\n",
    ),
    (".env", b"HOST=localhost\n"),
];

fn main() -> dotenvy::Result<()> {
    for (name, text) in &FILES {
        fs::write(name, text).map_err(Error::Io)?;
        let (pairs, troubles) = read(dotenvy::from_path_iter(name)?);
        println!("{name}: {pairs:?}");
        for trouble in troubles {
            println!("{name}: {trouble}");
        }
    }
    println!("{}", dotenvy::dotenv_iter()?.count());
    println!(
        "{}",
        dotenvy::from_filename_iter("good.env")?
            .filter_map(Result::ok)
            .count()
    );
    let first: dotenvy::Result<Vec<_>> = dotenvy::from_path_iter("bad.env")?.collect();
    println!(
        "{:?}",
        first
            .map_err(Trouble::from)
            .map_err(|trouble| trouble.to_string())
    );
    println!(
        "{:?}",
        dotenvy::from_path_iter("none.env")
            .err()
            .map(|error| error.not_found())
    );
    println!("{:?}", env::var("HOST"));
    Ok(())
}
