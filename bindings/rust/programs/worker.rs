//! A worker whose settings are in several files, of which later ones win, and a secret that another program writes to a
//! pipe.

use std::io::{self, BufReader, Read};
use std::process::{Command, Stdio};
use std::{env, fs};

type Failure = Box<dyn std::error::Error + Send + Sync>;

fn load_all(names: &[&str]) -> Result<Vec<String>, Failure> {
    let mut loaded = Vec::new();
    for name in names {
        match dotenvy::from_filename_override(name) {
            Ok(path) => loaded.push(path.file_name().unwrap().to_string_lossy().into_owned()),
            Err(dotenvy::Error::Io(error)) if error.kind() == io::ErrorKind::NotFound => {}
            Err(error) => return Err(error.into()),
        }
    }
    Ok(loaded)
}

fn load_output(command: &mut Command) -> Result<(), Failure> {
    let mut child = command.stdout(Stdio::piped()).spawn()?;
    let output = child.stdout.take().expect("it is piped");
    dotenvy::from_read(BufReader::new(output))?;
    child.wait()?;
    Ok(())
}

struct Broken(usize);

impl Read for Broken {
    fn read(&mut self, buffer: &mut [u8]) -> io::Result<usize> {
        self.0 += 1;
        if self.0 > 1 {
            return Err(io::Error::new(
                io::ErrorKind::UnexpectedEof,
                "the vault went away",
            ));
        }
        buffer[..8].copy_from_slice(b"FIRST=1\n");
        Ok(8)
    }
}

fn main() -> Result<(), Failure> {
    fs::write(
        "worker.env",
        "QUEUE=default\nRETRIES=3\nQUEUES=${QUEUE},low\n",
    )?;
    fs::write(
        "worker.local.env",
        "\u{feff}QUEUE=mine\nQUEUES=${QUEUE},${QUEUES}\n",
    )?;
    println!(
        "{:?}",
        load_all(&["worker.env", "worker.production.env", "worker.local.env"])?
    );
    load_output(Command::new("sh").args([
        "-c",
        "echo SECRET=\\'two; echo lines\\'; sleep 0.1; echo RETRIES=9",
    ]))?;
    for name in ["QUEUE", "QUEUES", "RETRIES", "SECRET"] {
        println!("{name}={:?}", dotenvy::var(name)?);
    }
    let error = dotenvy::from_read(Broken(0)).unwrap_err();
    println!("{error}; FIRST={:?}", env::var("FIRST"));
    println!(
        "{:?}",
        dotenvy::var("MISSING").map_err(|error| error.to_string())
    );
    let child = Command::new("sh")
        .args(["-c", "echo $QUEUES $RETRIES"])
        .output()?;
    println!("{}", String::from_utf8(child.stdout)?.trim());
    Ok(())
}
