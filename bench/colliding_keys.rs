// Writes an environment file of names that stand in one place of the toolchain's hash map, or of as many others.
//
// usage: rustc -O bench/colliding_keys.rs -o FILE && FILE colliding|others [COUNT] > ENV_FILE
//
// The map's hash has a fixed seed, so whoever writes a file can choose names that are searched for one after another.
// The names have eight letters, and the last fifteen bits of their hash are 0: a map of 160,000 entries starts each
// search at one of 32,768 places by them. To find so many, some five thousand million names are tried.

use std::io::{self, BufWriter, Write};

const SEED: u64 = 0x243f_6a88_85a3_08d3;
const MULTIPLIER: u64 = 0x9e37_79b9_7f4a_7c15;
const LETTERS: &[u8; 52] = b"ABCDEFGHIJKLMNOPQRSTUVWXYZabcdefghijklmnopqrstuvwxyz";

// Both halves of the product, joined by xor.
fn folded_multiply(a: u64, b: u64) -> u64 {
    let product = u128::from(a) * u128::from(b);
    product as u64 ^ (product >> 64) as u64
}

// The map's hash of eight letters, which are written as one number, and then the byte 0xFF behind them.
fn hash(name: u64) -> u32 {
    let state = folded_multiply(SEED ^ name, MULTIPLIER ^ 16);
    let state = folded_multiply(state ^ 0x00ff_ffff, MULTIPLIER ^ 2);
    (state ^ state >> 32) as u32
}

// All texts of four letters, each as a number.
fn four_letters() -> Vec<u64> {
    let two: Vec<u64> = LETTERS
        .iter()
        .flat_map(|second| {
            LETTERS
                .iter()
                .map(move |first| u64::from_le_bytes([*first, *second, 0, 0, 0, 0, 0, 0]))
        })
        .collect();
    two.iter()
        .flat_map(|behind| two.iter().map(move |front| front | behind << 16))
        .collect()
}

fn main() -> io::Result<()> {
    let mut arguments = std::env::args().skip(1);
    let is_wanted = match arguments.next().as_deref() {
        Some("colliding") => |name: u64| hash(name) & 0x7fff == 0,
        Some("others") => |_| true,
        _ => return Err(io::Error::other("say colliding or others")),
    };
    let count = match arguments.next() {
        Some(count) => count.parse().map_err(io::Error::other)?,
        None => 160_000,
    };
    let four = four_letters();
    let names = four
        .iter()
        .flat_map(|behind| four.iter().map(move |front| front | behind << 32));
    let mut out = BufWriter::new(io::stdout());
    for name in names.filter(|name| is_wanted(*name)).take(count) {
        out.write_all(&name.to_le_bytes())?;
        out.write_all(b"=1\n")?;
    }
    out.flush()
}
