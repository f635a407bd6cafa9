//! `oracle vertex-lines`, `vertex-list` and `vertex-stdin`: inputs for the functions that a corner passes through, as
//! lines of `single`, and what the program `vertex_test` prints and reads.

use crate::arguments::Arguments;
use std::io::{BufWriter, Write};
use vpu_oracle::calls::call_named;
use vpu_oracle::digests::{fnv, little_endian};
use vpu_oracle::traps::traps;
use vpu_oracle::vertices::{record, FUNCTIONS};
use vpu_oracle::words::word_line;

const SEED: u64 = 1;
const SECTION_WORDS: usize = 12_288;

/// Polygons of this many vertices and more are looked for, among so many inputs.
const WIDE: u32 = 9;
const SEARCHED: u64 = 600_000;
const WIDE_KEPT: usize = 64;

pub fn lines(arguments: &Arguments) -> Result<(), String> {
    arguments.expect(1, &["seed", "count"])?;
    let name = arguments.plain(0);
    FUNCTIONS.iter().find(|(known, _)| *known == name).ok_or(format!("no function {name:?}"))?;
    let seed = arguments.number("seed", 1)?;
    let mut out = BufWriter::new(std::io::stdout().lock());
    for index in 0..arguments.number("count", 1)? {
        writeln!(out, "{}", word_line(&record(name, seed, index))).map_err(|error| error.to_string())?;
    }
    out.flush().map_err(|error| error.to_string())
}

/// The records of a function, as many as its section holds.
fn records(name: &str, size: usize) -> Result<Vec<Vec<u32>>, String> {
    let mut found = traps(name);
    if name == "clip_all" {
        found.extend(wide_triangles()?);
    }
    found.extend((0..).map(|index| record(name, SEED, index)).take(SECTION_WORDS / size - found.len()));
    Ok(found)
}

fn wide_triangles() -> Result<Vec<Vec<u32>>, String> {
    let call = call_named("clip_all")?;
    let mut found: Vec<(u32, Vec<u32>)> = Vec::new();
    for index in 0..SEARCHED {
        let triangle = record("clip_all", SEED, index);
        let count = call(&triangle)?[0];
        if count >= WIDE {
            found.push((count, triangle));
        }
    }
    found.sort_by_key(|(count, _)| std::cmp::Reverse(*count));
    Ok(found.into_iter().take(WIDE_KEPT).map(|(_, triangle)| triangle).collect())
}

fn fixed() -> impl Iterator<Item = (&'static str, usize)> {
    FUNCTIONS.iter().filter_map(|(name, size)| size.map(|size| (*name, size)))
}

pub fn stdin(arguments: &Arguments) -> Result<(), String> {
    arguments.expect(0, &[])?;
    for (name, size) in fixed() {
        let mut words = records(name, size)?.concat();
        words.resize(SECTION_WORDS, 0);
        std::io::stdout().write_all(&little_endian(&words)).map_err(|error| error.to_string())?;
    }
    Ok(())
}

pub fn list(arguments: &Arguments) -> Result<(), String> {
    arguments.expect(0, &[])?;
    for (name, size) in fixed() {
        let call = call_named(name)?;
        let mut words = Vec::new();
        for record in records(name, size)? {
            let answer = call(&record)?;
            if name == "inverse" {
                words.push(!answer.is_empty() as u32);
            }
            words.extend(answer);
        }
        println!("{name} {:016x}", fnv(little_endian(&words).into_iter()));
    }
    Ok(())
}
