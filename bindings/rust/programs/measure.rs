//! Prints how long some calls of the crate take, and how much memory. Each is a process of its own.

use std::fmt::Write;
use std::io::{self, Read};
use std::process::Command;
use std::time::{Duration, Instant};
use std::{env, fs};

const ALL: [(&str, fn() -> String); 4] = [
    ("10 MB of line feeds, items", line_feeds),
    ("10 MB of line feeds, a load", load_of_line_feeds),
    ("A=1 over 4,000 variables", small_file),
    ("10,000 lines, items", many_lines),
];

/// The most memory that this process held.
fn memory() -> String {
    let status = fs::read_to_string("/proc/self/status").unwrap();
    let line = status.lines().find(|line| line.starts_with("VmHWM:"));
    let kilobytes: f64 = line.unwrap()[6..]
        .trim_end_matches("kB")
        .trim()
        .parse()
        .unwrap();
    format!("{:.1} MB", kilobytes / 1000.0)
}

fn line_feeds() -> String {
    let feeds = io::repeat(b'\n').take(10_000_000);
    assert_eq!(dotenvy::from_read_iter(feeds).count(), 0);
    memory()
}

fn load_of_line_feeds() -> String {
    dotenvy::from_read(io::repeat(b'\n').take(10_000_000)).unwrap();
    memory()
}

fn fastest(mut run: impl FnMut()) -> Duration {
    let times = (0..20).map(|_| {
        let before = Instant::now();
        run();
        before.elapsed()
    });
    times.min().unwrap()
}

fn small_file() -> String {
    for number in 0..4000 {
        env::set_var(format!("T_{number}"), "x".repeat(20));
    }
    let time = fastest(|| dotenvy::from_read("A=1\n".as_bytes()).unwrap());
    format!("{:.3} ms", time.as_secs_f64() * 1000.0)
}

fn many_lines() -> String {
    let mut file = String::new();
    for number in 0..2500 {
        writeln!(file, "# of number {number}\nT_{number}=value-{number}").unwrap();
        writeln!(
            file,
            "T_Q_{number}='two words' # why\nT_S_{number}=\"${{T_{number}}}/x\""
        )
        .unwrap();
    }
    let time = fastest(|| {
        let pairs = dotenvy::from_read_iter(file.as_bytes()).map(Result::unwrap);
        assert_eq!(pairs.count(), 7500);
    });
    format!("{:.1} ms", time.as_secs_f64() * 1000.0)
}

fn main() {
    if let Some(chosen) = env::args().nth(1) {
        let (_, run) = ALL[chosen.parse::<usize>().unwrap()];
        println!("{}", run());
        return;
    }
    for (number, (what, _)) in ALL.iter().enumerate() {
        let program = env::current_exe().unwrap();
        let output = Command::new(program)
            .arg(number.to_string())
            .output()
            .unwrap();
        println!(
            "{what}: {}",
            String::from_utf8_lossy(&output.stdout).trim_end()
        );
    }
}
