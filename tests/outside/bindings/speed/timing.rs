// Times calls: the programs of this folder share this file.

use std::hint::black_box;
use std::time::{Duration, Instant};
use std::{env, fs};

/// How long a call is repeated, unless it takes longer once.
const LONG: Duration = Duration::from_millis(400);

/// Prints the time of the fastest call in nanoseconds, or that the call fails.
fn time<T, E>(name: &str, mut call: impl FnMut() -> Result<T, E>) {
    let (start, mut best) = (Instant::now(), Duration::MAX);
    while best == Duration::MAX || start.elapsed() < LONG {
        let before = Instant::now();
        match black_box(call()) {
            Ok(result) => drop(result),
            Err(_) => return println!("{name} fails"),
        }
        best = best.min(before.elapsed());
    }
    println!("{name} {}", best.as_nanos());
}

/// Returns the bytes of the file that the first argument names.
fn input() -> Vec<u8> {
    let path = env::args_os().nth(1).expect("usage: PROGRAM FILE");
    fs::read(path).expect("the file can be read")
}
