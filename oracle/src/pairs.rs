//! Sums, differences, products and quotients of pairs of floats, by the proved operations (archive of the crate `ieee_c`), by
//! the machine and over whole numbers; all three are compared bit for bit, every NaN as one value.
//!   pairs run [--pairs N] [--seed S]     compares on N pairs, half of them made on purpose
//!   pairs list [--pairs N] [--seed S]    prints the first N of those made on purpose
//!   pairs known <LINES                   compares the whole numbers' answers with a list: both floats and four answers a line
//! The seed determines the pairs, however many threads there are. `oracle/exhaustive` builds and runs it.

#[allow(dead_code)]
mod arguments;
mod bits;
#[path = "pairs/parts.rs"]
mod parts;
#[path = "pairs/purpose.rs"]
mod purpose;
#[allow(dead_code)]
mod random;
#[path = "pairs/whole.rs"]
mod whole;

use arguments::Arguments;
use bits::bits;
use parts::Pair;
use purpose::FAMILIES;
use random::Random;
use std::io::{BufWriter, Write};
use std::sync::atomic::{AtomicU64, Ordering};
use whole::{Rounded, INF, SIGN};

const THREADS: usize = 2;
const CHUNK: u64 = 1 << 16;

// The exports of `crates/ieee_c/src/lib.rt`.
extern "C" {
    fn ieee_add(x: f32, y: f32) -> f32;
    fn ieee_sub(x: f32, y: f32) -> f32;
    fn ieee_mul(x: f32, y: f32) -> f32;
    fn ieee_div(x: f32, y: f32) -> f32;
}

const OPERATIONS: [&str; 4] = ["add", "sub", "mul", "div"];

fn proved(x: f32, y: f32) -> [u32; 4] {
    // SAFETY: they take any two floats.
    unsafe { [ieee_add(x, y), ieee_sub(x, y), ieee_mul(x, y), ieee_div(x, y)] }.map(bits)
}

fn machine(x: f32, y: f32) -> [u32; 4] {
    [x + y, x - y, x * y, x / y].map(bits)
}

fn whole_numbers(x: u32, y: u32) -> [Rounded; 4] {
    [whole::add(x, y), whole::sub(x, y), whole::mul(x, y), whole::div(x, y)]
}

// ---- Pairs

/// The pairs of a chunk, one after another. Every second one is made on purpose, and comes with its family.
struct Chunk {
    random: Random,
    index: u64,
}

impl Chunk {
    fn new(seed: u64, number: u64) -> Self {
        Self { random: Random::named("pairs", seed, number), index: number * CHUNK }
    }

    fn next(&mut self) -> (Option<&'static str>, Pair) {
        let index = self.index as usize;
        self.index += 1;
        if index % 2 == 0 {
            return (None, (self.random.word(), self.random.word()));
        }
        let (name, make) = FAMILIES[index / 2 % FAMILIES.len()];
        (Some(name), make(&mut self.random))
    }
}

// ---- What was seen

const KINDS: [&str; 9] =
    ["NaN", "inf", "greatest", "least-norm", "subnormal", "+0", "-0", "ties", "low-ties"];
const LEAST_NORMAL: u32 = 0x0080_0000;

fn kind(bits: u32) -> Option<usize> {
    match bits & !SIGN {
        0 => Some(if bits == 0 { 5 } else { 6 }),
        1..LEAST_NORMAL => Some(4),
        LEAST_NORMAL => Some(3),
        size if size < INF - 1 => None,
        size if size < INF => Some(2),
        INF => Some(1),
        _ => Some(0),
    }
}

/// What was seen of one operation: how many results differ, the first pair that does, how many are of each kind.
#[derive(Clone, Default)]
struct Seen {
    differences: u64,
    first: Option<(u64, String)>,
    kinds: [u64; KINDS.len()],
}

impl Seen {
    fn count(&mut self, result: Rounded) {
        if let Some(kind) = kind(result.bits) {
            self.kinds[kind] += 1;
        }
        if result.tie {
            self.kinds[if result.bits & !SIGN > LEAST_NORMAL { 7 } else { 8 }] += 1;
        }
    }

    fn join(&mut self, other: Self) {
        self.differences += other.differences;
        self.first = [self.first.take(), other.first].into_iter().flatten().min();
        self.kinds.iter_mut().zip(other.kinds).for_each(|(sum, kind)| *sum += kind);
    }
}

type Table = [Seen; 4];

fn compare(index: u64, family: Option<&str>, (x, y): Pair, table: &mut Table) {
    let (a, b) = (f32::from_bits(x), f32::from_bits(y));
    let (proved, machine, whole) = (proved(a, b), machine(a, b), whole_numbers(x, y));
    for (at, seen) in table.iter_mut().enumerate() {
        seen.count(whole[at]);
        if proved[at] != machine[at] || machine[at] != whole[at].bits {
            seen.differences += 1;
            seen.first.get_or_insert_with(|| {
                let family = family.unwrap_or("any patterns");
                let text = format!(
                    "  {x:08x} {y:08x} ({family}): proved {:08x}, machine {:08x}, whole numbers {:08x}",
                    proved[at], machine[at], whole[at].bits
                );
                (index, text)
            });
        }
    }
}

/// Takes chunks until there are none. They come in rising order, so that the first difference is the least.
fn work(pairs: u64, seed: u64, next: &AtomicU64) -> Table {
    let mut table = Table::default();
    loop {
        let number = next.fetch_add(1, Ordering::Relaxed);
        let first = number * CHUNK;
        if first >= pairs {
            return table;
        }
        let mut chunk = Chunk::new(seed, number);
        for index in first..pairs.min(first + CHUNK) {
            let (family, pair) = chunk.next();
            compare(index, family, pair, &mut table);
        }
    }
}

fn run(pairs: u64, seed: u64) -> bool {
    let next = AtomicU64::new(0);
    let mut table = Table::default();
    std::thread::scope(|scope| {
        let threads = [(); THREADS].map(|_| scope.spawn(|| work(pairs, seed, &next)));
        for thread in threads {
            let part = thread.join().expect("a thread ended early");
            table.iter_mut().zip(part).for_each(|(seen, part)| seen.join(part));
        }
    });
    println!("{pairs} pairs of seed {seed}, {} of them on purpose", pairs / 2);
    println!("    differences{}", KINDS.map(|name| format!(" {name:>10}")).concat());
    for (name, seen) in OPERATIONS.iter().zip(&table) {
        println!("{name} {:11}{}", seen.differences, seen.kinds.map(|kind| format!(" {kind:10}")).concat());
        if let Some((_, text)) = &seen.first {
            println!("{text}");
        }
    }
    table.iter().all(|seen| seen.differences == 0)
}

// ---- Beside floats.py

fn list(pairs: u64, seed: u64) -> std::io::Result<()> {
    let mut out = BufWriter::new(std::io::stdout().lock());
    let mut chunk = Chunk::new(seed, 0);
    for index in 0..pairs * 2 {
        if index % CHUNK == 0 {
            chunk = Chunk::new(seed, index / CHUNK);
        }
        if let (Some(_), (x, y)) = chunk.next() {
            writeln!(out, "{x:08x} {y:08x}")?;
        }
    }
    out.flush()
}

fn known() -> Result<bool, String> {
    let (mut pairs, mut differences) = (0, 0);
    for line in std::io::stdin().lines() {
        let line = line.map_err(|error| error.to_string())?;
        let words: Result<Vec<u32>, _> = line.split(' ').map(|word| u32::from_str_radix(word, 16)).collect();
        let words = words.map_err(|error| format!("{line}: {error}"))?;
        let [x, y, answers @ ..] = &words[..] else { return Err(format!("{line}: no pair")) };
        let whole = whole_numbers(*x, *y).map(|result| result.bits);
        pairs += 1;
        if answers != whole {
            differences += 1;
            if differences == 1 {
                println!("  {line}: whole numbers{}", whole.map(|bits| format!(" {bits:08x}")).concat());
            }
        }
    }
    println!("{pairs} pairs on purpose beside floats.py, {differences} differences");
    Ok(differences == 0 && pairs > 0)
}

fn called() -> Result<bool, String> {
    let texts: Vec<String> = std::env::args().skip(1).collect();
    let arguments = Arguments::parse(&texts)?;
    arguments.expect(1, &["pairs", "seed"])?;
    let pairs = arguments.number("pairs", 1_000_000_000)?;
    let seed = arguments.number("seed", 1)?;
    match arguments.plain(0) {
        "run" => Ok(run(pairs, seed)),
        "list" => list(pairs, seed).map(|()| true).map_err(|error| error.to_string()),
        "known" => known(),
        other => Err(format!("no subcommand {other}")),
    }
}

fn main() {
    match called() {
        Ok(true) => (),
        Ok(false) => std::process::exit(1),
        Err(message) => {
            eprintln!("pairs: {message}");
            std::process::exit(1);
        }
    }
}
