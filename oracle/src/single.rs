//! `oracle single FUNCTION`: one call of a function of the original for each line of hexadecimal words.

use crate::arguments::Arguments;
use std::io::{BufRead, BufWriter, Write};
use vpu_oracle::calls::{call_named, Call};
use vpu_oracle::words::{parse_line, word_line};

pub fn single(arguments: &Arguments) -> Result<(), String> {
    arguments.expect(1, &[])?;
    let call = call_named(arguments.plain(0))?;
    let mut out = BufWriter::new(std::io::stdout().lock());
    for (index, line) in std::io::stdin().lock().lines().enumerate() {
        let line = line.map_err(|error| error.to_string())?;
        let text = answer(call, &line).map_err(|error| format!("line {}: {error}", index + 1))?;
        writeln!(out, "{text}").map_err(|error| error.to_string())?;
    }
    out.flush().map_err(|error| error.to_string())
}

fn answer(call: Call, line: &str) -> Result<String, String> {
    let words = call(&parse_line(line)?)?;
    Ok(if words.is_empty() { "none".to_string() } else { word_line(&words) })
}
