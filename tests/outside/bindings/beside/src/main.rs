//! Reads pairs of files by the crate `plist`: a file, and the one that the crate `sizhetom` wrote of its
//! value. For each pair it prints `same` or `differ`, or `fails` if the crate can't read the first one.

use plist::Value;
use std::io::{self, Cursor, Read, Write};

fn next_file(input: &mut impl Read) -> Option<Vec<u8>> {
    let mut length = [0; 4];
    input.read_exact(&mut length).ok()?;
    let mut file = vec![0; u32::from_ne_bytes(length) as usize];
    input.read_exact(&mut file).expect("a file has its length");
    Some(file)
}

fn main() -> io::Result<()> {
    let (mut input, mut output) = (io::stdin().lock(), io::stdout().lock());
    while let Some(one) = next_file(&mut input) {
        let other = next_file(&mut input).expect("the files are pairs");
        let [one, other] = [one, other].map(|file| Value::from_reader(Cursor::new(file)));
        // The values are compared as text, so that a NaN equals itself.
        let answer = match (one, other) {
            (Err(_), _) => "fails",
            (Ok(one), Ok(other)) if format!("{one:?}") == format!("{other:?}") => "same",
            _ => "differ",
        };
        writeln!(output, "{answer}")?;
    }
    output.flush()
}
