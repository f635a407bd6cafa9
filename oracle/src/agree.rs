//! Runs the proved functions of a corner beside the original, in one process, and compares bit for bit, every NaN as one
//! value. `agree [--count N] [--seed S] [--only FUNCTION]`; linked with the archive of the crate `vertex_c`.

#[allow(dead_code)]
mod arguments;

use arguments::Arguments;
use vpu_oracle::calls::call_named;
use vpu_oracle::digests::{bits, ONE_NAN};
use vpu_oracle::vertices::{record, FUNCTIONS};
use vpu_oracle::words::word_line;

/// What the port writes at most: 28 vertices of 16.
const ROOM: usize = 448;

// The exports of `crates/vertex_c_c/src/lib.rt`: a slice is a pointer and a length, an array a pointer.
extern "C" {
    fn vertex_transform(x: *const f32, length: usize, out: *mut f32);
    fn vertex_multiply(x: *const f32, length: usize, out: *mut f32);
    fn vertex_inverse(x: *const f32, length: usize, out: *mut f32) -> bool;
    fn vertex_apply(x: *const f32, length: usize, out: *mut f32);
    fn vertex_normalize(x: *const f32, length: usize, out: *mut f32);
    fn vertex_shade(x: *const f32, length: usize, out: *mut f32);
    fn vertex_distance(x: *const f32, length: usize, plane: usize) -> f32;
    fn vertex_clip(x: *const f32, length: usize, count: usize, plane: usize, out: *mut f32) -> usize;
    fn vertex_clip_all(x: *const f32, length: usize, out: *mut f32) -> usize;
}

type Room = [f32; ROOM];

/// Calls a function that always writes the same number of floats, and returns that number.
fn written(function: &str, floats: &[f32], room: &mut Room) -> usize {
    let (x, length, out) = (floats.as_ptr(), floats.len(), room.as_mut_ptr());
    // SAFETY: records have the lengths that the exports ask for, and `room` is long enough for every answer.
    unsafe {
        match function {
            "transform" => vertex_transform(x, length, out),
            "multiply" => vertex_multiply(x, length, out),
            "apply" => vertex_apply(x, length, out),
            "normalize" => vertex_normalize(x, length, out),
            _ => vertex_shade(x, length, out),
        }
    }
    match function {
        "multiply" => 16,
        "apply" | "normalize" => 3,
        _ => 4,
    }
}

fn inverted(floats: &[f32], room: &mut Room) -> bool {
    // SAFETY: as in `written`.
    unsafe { vertex_inverse(floats.as_ptr(), floats.len(), room.as_mut_ptr()) }
}

/// How many vertices a clip writes.
fn clipped(function: &str, floats: &[f32], plane: usize, room: &mut Room) -> usize {
    let (x, length, out) = (floats.as_ptr(), floats.len(), room.as_mut_ptr());
    // SAFETY: as in `written`; the generator makes 19 vertices at most.
    unsafe {
        match function {
            "clip" => vertex_clip(x, length, length / 16, plane, out),
            _ => vertex_clip_all(x, length, out),
        }
    }
}

/// The port's answer in the layout of `single`, no words for "none".
fn port(function: &str, words: &[u32]) -> Vec<u32> {
    let planes = matches!(function, "distance" | "clip") as usize;
    let plane = words[0] as usize;
    let floats: Vec<f32> = words[planes..].iter().map(|word| f32::from_bits(*word)).collect();
    let mut room = [0.0; ROOM];
    let mut answer = Vec::new();
    let count = match function {
        "inverse" => 9 * inverted(&floats, &mut room) as usize,
        "distance" => {
            // SAFETY: as in `written`.
            room[0] = unsafe { vertex_distance(floats.as_ptr(), floats.len(), plane) };
            1
        }
        "clip" | "clip_all" => {
            let vertices = clipped(function, &floats, plane, &mut room);
            answer.push(vertices as u32);
            16 * vertices
        }
        _ => written(function, &floats, &mut room),
    };
    answer.extend(room[..count].iter().map(|float| bits(*float)));
    answer
}

/// What was seen of one function.
#[derive(Default)]
struct Seen {
    differences: u64,
    first: String,
    nans: u64,
    none: u64,
    sizes: [u64; ROOM / 16 + 1],
}

impl Seen {
    fn take(&mut self, record: &[u32], original: &[u32], port: &[u32]) {
        self.nans += original.contains(&ONE_NAN) as u64;
        match original {
            [] => self.none += 1,
            [size, ..] => *self.sizes.get_mut(*size as usize).unwrap_or(&mut 0) += 1,
        }
        if original != port {
            self.differences += 1;
            if self.differences == 1 {
                let lines = [record, original, port].map(word_line);
                self.first =
                    format!("  input    {}\n  original {}\n  port     {}\n", lines[0], lines[1], lines[2]);
            }
        }
    }

    fn sizes_text(&self) -> String {
        let seen = self.sizes.iter().enumerate().filter(|(_, count)| **count > 0);
        seen.map(|(size, count)| format!(" {size}:{count}")).collect()
    }
}

fn compare(function: &str, seed: u64, count: u64) -> Result<Seen, String> {
    let original = call_named(function)?;
    let mut seen = Seen::default();
    for index in 0..count {
        let record = record(function, seed, index);
        seen.take(&record, &original(&record)?, &port(function, &record));
    }
    Ok(seen)
}

fn run() -> Result<bool, String> {
    let texts: Vec<String> = std::env::args().skip(1).collect();
    let arguments = Arguments::parse(&texts)?;
    arguments.expect(0, &["count", "seed", "only"])?;
    let count = arguments.number("count", 100_000)?;
    let seed = arguments.number("seed", 1)?;
    let mut agreed = true;
    for (function, _) in FUNCTIONS {
        if arguments.option("only").is_some_and(|only| only != function) {
            continue;
        }
        let seen = compare(function, seed, count)?;
        let (differences, nans, none) = (seen.differences, seen.nans, seen.none);
        println!("{function:10} {count:8} inputs, {differences} differences ({nans} with NaN, {none} none)");
        print!("{}", seen.first);
        if function == "clip_all" {
            println!("  vertices:inputs{}", seen.sizes_text());
        }
        agreed &= differences == 0;
    }
    Ok(agreed)
}

fn main() {
    match run() {
        Ok(true) => (),
        Ok(false) => std::process::exit(1),
        Err(message) => {
            eprintln!("agree: {message}");
            std::process::exit(1);
        }
    }
}
