//! Compares the port with its judge at scale, in one process, after each call: answer, status, the whole state, plane, both
//! depths, both stores, every NaN as one value. Linked with the archive of the crate `vpu_c`; `oracle/compare` builds it.
//!   compare [--streams N] [--seed S] [--first I] --out FILE

#[allow(dead_code)]
mod arguments;
#[path = "compare/cases.rs"]
mod cases;
#[path = "beside/differences.rs"]
mod differences;
#[path = "beside/port.rs"]
mod port;
#[path = "compare/refused.rs"]
mod refused;
#[allow(dead_code)]
#[path = "beside/sides.rs"]
mod sides;

use arguments::Arguments;
use cases::{case, Case};
use differences::Differences;
use port::MOST_STORE;
use refused::Refused;
use sides::Sides;
use vpu_oracle::judge::Start;
use vpu_oracle::reasons::{Reason, Row, COMMANDS, HEADERS, OTHERS};
use vpu_oracle::streams::{Command, Stream};
use vpu_oracle::watch::Watch;

/// What was seen of all streams.
#[derive(Default)]
struct Totals {
    watch: Watch,
    refused: Refused,
    differences: Differences,
    calls: u64,
    words: u64,
}

impl Totals {
    /// Returns the call at which something differs, and what.
    fn run(&mut self, sides: &mut Sides, case: &mut Case) -> Option<(usize, String)> {
        if let Some(what) = sides.reset(case.start) {
            return Some((0, what));
        }
        for (place, call) in case.calls.iter().enumerate() {
            for _ in case.tries.iter().filter(|tried| **tried == place) {
                if let Some(what) = self.refused.one(sides, &mut case.random) {
                    return Some((place, format!("a call that is refused: {what}")));
                }
            }
            self.calls += 1;
            self.words += call.len() as u64;
            if let Some(what) = sides.feed(call, &mut self.watch) {
                return Some((place, what));
            }
        }
        sides.other_area().or_else(|| sides.other_pixel()).map(|what| (case.calls.len() - 1, what))
    }

    fn compare(&mut self, sides: &mut Sides, seed: u64, index: u64) {
        let mut case = case(seed, index);
        if let Some((place, what)) = self.run(sides, &mut case) {
            let what = format!("stream {index}: {what}");
            self.differences.add(sides, case.start, &case.calls[..=place], what);
        }
    }
}

/// Stores of the greatest length that may be lent.
fn greatest_stores(sides: &mut Sides, totals: &mut Totals) {
    let start = Start { stores: [MOST_STORE; 2], status: 0 };
    let mut stream = Stream::default();
    stream.send(&Command::texture(1, 3, 1, &[0x1234_5678, 0x9abc_def0]));
    let mut case = Case {
        start,
        calls: vec![stream.words],
        tries: Vec::new(),
        random: vpu_oracle::random::Random::new(0),
    };
    if let Some((place, what)) = totals.run(sides, &mut case) {
        totals.differences.add(sides, start, &case.calls[..=place], what);
    }
}

const REASONS: [(Reason, &str); 8] = [
    (Reason::WrongLength, "wrong length"),
    (Reason::OutOfRange, "out of range"),
    (Reason::NotFinite, "not finite"),
    (Reason::Position, "position"),
    (Reason::NotHeld, "not held"),
    (Reason::NotInvertible, "not invertible"),
    (Reason::NoSlot, "no slot"),
    (Reason::NoWords, "no words"),
];

/// Prints one line of the table. What can occur and did not goes to `missing`.
fn print_row(watch: &Watch, row: Row, missing: &mut Vec<String>) {
    print!("{:8} {:>9}", row.0, watch.count(row, None));
    if watch.count(row, None) == 0 {
        missing.push(format!("{} accepted", row.0));
    }
    for (reason, name) in REASONS {
        let count = watch.count(row, Some(reason));
        let possible = row.1.contains(&reason);
        print!("{:>1$}", if possible { count.to_string() } else { "-".to_string() }, name.len() + 2);
        if possible && count == 0 {
            missing.push(format!("{} {name}", row.0));
        }
    }
    println!();
}

fn print_commands(watch: &Watch, missing: &mut Vec<String>) {
    print!("command   accepted");
    REASONS.iter().for_each(|(_, name)| print!("  {name}"));
    println!();
    COMMANDS.iter().for_each(|(_, row)| print_row(watch, *row, missing));
    let headers = [
        (HEADERS, Reason::ZeroOpcode, "zero opcode"),
        (HEADERS, Reason::CountTooLarge, "count too large"),
        (OTHERS, Reason::UnknownOpcode, "unknown opcode"),
    ];
    for (row, reason, name) in headers {
        let count = watch.count(row, Some(reason));
        println!("{name}: {count}");
        if count == 0 {
            missing.push(name.to_string());
        }
    }
}

fn print_refused(refused: &Refused, missing: &mut Vec<String>) {
    println!("calls that nothing may come of, by the answer wanted:");
    for (name, count) in refused.counts() {
        println!("  {name}: {count}");
        if count == 0 {
            missing.push(name);
        }
    }
}

fn run() -> Result<bool, String> {
    let arguments = Arguments::parse(&std::env::args().skip(1).collect::<Vec<_>>())?;
    arguments.expect(0, &["streams", "seed", "first", "out"])?;
    let (seed, first) = (arguments.number("seed", 1)?, arguments.number("first", 0)?);
    let streams = arguments.number("streams", 2_000)?;
    let (mut sides, mut totals, mut missing) = (Sides::new(), Totals::default(), Vec::new());
    greatest_stores(&mut sides, &mut totals);
    (first..first + streams).for_each(|index| totals.compare(&mut sides, seed, index));
    let Totals { watch, refused, differences, calls, words } = totals;
    print_commands(&watch, &mut missing);
    print_refused(&refused, &mut missing);
    missing.iter().for_each(|what| println!("did not occur: {what}"));
    println!("{streams} streams, {calls} calls, {words} words, {} commands", watch.commands);
    println!("{} draws, {} changed a pixel, {:.1} %", watch.draws, watch.changed, watch.share());
    let agreed = differences.report(arguments.wanted("out")?)?;
    println!("{} differences", differences.count);
    Ok(agreed && missing.is_empty())
}

fn main() {
    match run() {
        Ok(agreed) => std::process::exit(!agreed as i32),
        Err(message) => {
            eprintln!("compare: {message}");
            std::process::exit(1);
        }
    }
}
