//! A program that loads its files into a map, and has no unsafe code, not even to load while threads run.
#![forbid(unsafe_code)]

use dotenvy::{Dialect, EnvMap, LayerError, Mode};
use std::process::Command;
use std::{fs, thread};

fn settings(files: &[&str]) -> Result<EnvMap, LayerError> {
    let mut settings = EnvMap::new();
    for file in files {
        settings.add_path(file, Mode::Override, Dialect::Next)?;
    }
    Ok(settings)
}

fn main() -> Result<(), Box<dyn std::error::Error>> {
    fs::write(
        "base.env",
        "APP_NAME=shop\nGREETING=\"Hello from $APP_NAME\"\n",
    )?;
    fs::write("local.env", "APP_NAME=\"my $APP_NAME\"\n")?;
    fs::write("broken.env", "\n# two words\nMOTTO=two words\n")?;
    let loads = [
        &["base.env"][..],
        &["base.env", "local.env"],
        &["base.env", "broken.env"],
    ];
    for load in loads.map(|files| thread::spawn(move || settings(files))) {
        match load.join().expect("no panic") {
            Ok(settings) => println!("{:?}", settings.iter().collect::<Vec<_>>()),
            Err(error) => println!("{error}; line {:?}", error.line()),
        }
    }
    let settings = settings(&["base.env"])?;
    let output = Command::new("/bin/sh")
        .args(["-c", "echo $GREETING"])
        .env_clear()
        .envs(&settings)
        .output()?;
    print!("{}", String::from_utf8(output.stdout)?);
    println!("{:?}", std::env::var("GREETING"));
    Ok(())
}
