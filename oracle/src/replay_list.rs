//! `oracle replay-streams` and `replay-list`: what the program `replay` reads and prints.

use crate::arguments::Arguments;
use std::io::Write;
use vpu_oracle::digests::little_endian;
use vpu_oracle::replay;
use vpu_oracle::stored;

pub fn streams(arguments: &Arguments) -> Result<(), String> {
    arguments.expect(0, &[])?;
    let words = replay::encode(&stored::all());
    std::io::stdout().write_all(&little_endian(&words)).map_err(|error| error.to_string())
}

pub fn list(arguments: &Arguments) -> Result<(), String> {
    arguments.expect(0, &[])?;
    for stream in stored::all() {
        println!("{}", stream.lines().join("\n"));
    }
    Ok(())
}
