//! How long the port and the original take for the same words, in one process, as a page of Markdown. Linked with the
//! archive of the crate `vpu_c`; `oracle/bench` builds it.
//!   bench --scenes FOLDER --out FOLDER --machine NAME --compilers TEXT [--passes N] [--only TEXT]

#[allow(dead_code)]
mod arguments;
#[path = "bench/overlay.rs"]
mod overlay;
#[allow(dead_code)]
#[path = "beside/port.rs"]
mod port;
#[allow(dead_code)]
#[path = "beside/sides.rs"]
mod sides;
#[path = "bench/sprites.rs"]
mod sprites;
#[path = "bench/works.rs"]
mod works;

use arguments::Arguments;
use port::Port;
use sides::other_picture;
use vpu_oracle::digests::little_endian;
use vpu_oracle::judge::{Judge, Start};
use vpu_oracle::original::Vpu;
use vpu_oracle::watch::Watch;
use vpu_oracle::words::encode_calls;
use works::Work;

/// The least time of a pass, in nanoseconds.
const PASS: u64 = 20_000_000;

/// Stores that are enough for each work.
const START: Start = Start { stores: [1_200_000; 2], status: 0 };

#[repr(C)]
struct Timespec {
    seconds: i64,
    nanoseconds: i64,
}

extern "C" {
    /// From C's library. Clock 2 is the processor time that this process has used.
    fn clock_gettime(clock: i32, time: *mut Timespec) -> i32;
}

fn now() -> u64 {
    let mut time = Timespec { seconds: 0, nanoseconds: 0 };
    // SAFETY: the pointer is that of a local.
    let failed = unsafe { clock_gettime(2, &mut time) };
    assert_eq!(failed, 0, "no clock");
    time.seconds as u64 * 1_000_000_000 + time.nanoseconds as u64
}

/// What is timed, for either side.
trait Side {
    fn feed(&mut self, words: &[u32]);

    fn round(&mut self, work: &Work) {
        work.words.chunks(work.per_call).for_each(|words| self.feed(words));
    }

    /// Nanoseconds of so many rounds.
    fn pass(&mut self, work: &Work, rounds: u64) -> u64 {
        let mut spent = 0;
        for _ in 0..rounds {
            self.feed(&work.each);
            let start = now();
            self.round(work);
            spent += now() - start;
        }
        spent
    }

    /// How many rounds take long enough. The first of them also touches all memory that the work uses.
    fn rounds(&mut self, work: &Work) -> u64 {
        let mut rounds = 1;
        while self.pass(work, rounds) < PASS {
            rounds *= 2;
        }
        rounds
    }
}

impl Side for Port {
    fn feed(&mut self, words: &[u32]) {
        assert_eq!(Port::feed(self, words), 0, "a feed is refused");
    }
}

/// The original, with or without the sprites that are appended to it: to look for them takes time.
struct Original<const SPRITES: bool>(Vpu);

impl<const SPRITES: bool> Side for Original<SPRITES> {
    fn feed(&mut self, words: &[u32]) {
        if SPRITES {
            self.0.feed(words);
        } else {
            self.0.feed_without_sprites(words);
        }
    }
}

/// The best pass of each side, in nanoseconds for a unit of the work. The sides take turns, and have to show the same picture.
fn time<const SPRITES: bool>(port: &mut Port, work: &Work, passes: u64) -> Result<[f64; 2], String> {
    let mut original = Original::<SPRITES>(Vpu::new());
    port.reset(START);
    Side::feed(port, &work.before);
    Side::feed(&mut original, &work.before);
    let rounds = [port.rounds(work), original.rounds(work)];
    let mut best = [u64::MAX; 2];
    for _ in 0..passes {
        best[0] = best[0].min(port.pass(work, rounds[0]));
        best[1] = best[1].min(original.pass(work, rounds[1]));
    }
    let statuses = [port.state.status, original.0.status()];
    match other_picture(port, &original.0) {
        None if statuses == [work.status; 2] => {}
        other => return Err(format!("{}: status {statuses:x?}, other picture: {other:?}", work.name)),
    }
    Ok([0, 1].map(|side| best[side] as f64 / (rounds[side] * work.count as u64) as f64))
}

/// Nearly all draws of a work have to change a pixel. If they are refused or meant to be unseen, none may.
fn see(work: &Work) -> Result<(), String> {
    let (mut judge, mut watch) = (Judge::new(), Watch::default());
    judge.reset(START);
    for words in [&work.before, &work.each, &work.words] {
        judge.feed(words, &mut watch);
    }
    let (draws, changed) = (watch.draws, watch.changed);
    let unseen = work.unseen || work.status != 0;
    let as_meant = if unseen { changed == 0 } else { changed * 20 >= draws * 19 };
    if as_meant {
        return Ok(());
    }
    Err(format!("{}: {changed} of {draws} seen", work.name))
}

fn duration(nanoseconds: f64) -> String {
    let (value, unit) = match nanoseconds {
        n if n < 1e3 => (n, "ns"),
        n if n < 1e6 => (n / 1e3, "µs"),
        n => (n / 1e6, "ms"),
    };
    let digits = if value < 10.0 {
        2
    } else if value < 100.0 {
        1
    } else {
        0
    };
    format!("{value:.digits$} {unit}")
}

fn table(port: &mut Port, works: &[Work], arguments: &Arguments) -> Result<(), String> {
    let (folder, passes) = (arguments.wanted("out")?, arguments.number("passes", 7)?);
    println!("| work | for a | port | original | port / original |\n|---|---|---|---|---|");
    let chosen = |work: &&Work| arguments.option("only").is_none_or(|only| work.name.contains(only));
    for work in works.iter().filter(chosen) {
        let calls = [work.before.clone(), work.each.clone(), work.words.clone()];
        let file = format!("{folder}/{}", work.file());
        std::fs::write(&file, little_endian(&encode_calls(&calls)))
            .map_err(|error| format!("{file}: {error}"))?;
        see(work)?;
        let [port, original] =
            if work.sprites { time::<true>(port, work, passes)? } else { time::<false>(port, work, passes)? };
        let (name, unit, ratio) = (&work.name, work.unit, port / original);
        println!("| {name} | {unit} | {} | {} | {ratio:.2} |", duration(port), duration(original));
    }
    println!();
    Ok(())
}

/// The processor as the system names it.
fn processor() -> String {
    let text = std::fs::read_to_string("/proc/cpuinfo").unwrap_or_default();
    let name =
        text.lines().find(|line| line.starts_with("model name")).and_then(|line| line.split(": ").nth(1));
    let cores = std::thread::available_parallelism().map_or(0, |count| count.get());
    format!("{}, {cores} cores", name.unwrap_or("unnamed processor"))
}

fn print_machine(arguments: &Arguments) -> Result<(), String> {
    let (built, machine) = (std::env::consts::ARCH, arguments.wanted("machine")?);
    let emulated = if built == machine { "neither side is emulated" } else { "both sides are emulated" };
    println!("Machine: {}, {machine}; both sides are built for {built}, and {emulated}.", processor());
    println!("Compilers: {}.", arguments.wanted("compilers")?);
    let load = std::fs::read_to_string("/proc/loadavg").unwrap_or_default();
    println!("Load of the last minute when it began: {}.\n", load.split(' ').next().unwrap_or("unknown"));
    Ok(())
}

const HEAD: &str = "Port and original are in one process and are fed the same words. Times are processor time.
A pass is as many rounds as take at least 20 milliseconds, and a figure is the best pass. The sides take turns, pass by pass. After each work,
plane, both depths and status have to be the same. What a work uploads or sets first is not counted, and neither are clears of the depths between
rounds. All memory that a work uses has been touched before, so the first use of a page is not counted. What the original allocates for each
command is counted. The original has no sprites: for command 10 its column is the reading of their rules that the oracle appends to it.

This page is made by the program. `docs/SPEED.md` has what was changed for speed, what was tried, and which run this is.
";

const ABOUT_WORKS: &str = "Triangles fill half their box and are anywhere on the screen. Each is nearer than those before it, so that it is seen.
A round has 100, in boxes of 2,000 pixels if no other size is given. Lit means two lights. 14 is never lit. A draw
that is refused stops at the first check that fails, on both sides. A call of one word pays for the state,
which travels by value and is tested whole (3 kilobytes, 128 slots). So a host feeds what it has in one call.
";

const ABOUT_GROWTH: &str = "## Growth

The same for sizes that grow, with the time for a word, a pixel of the box or a triangle. If the cost is linear, it stays level or falls.
";

const ABOUT_SPRITES: &str = "## Sprites

The original refuses 10. Its column for 10 is `draw_sprite` of `oracle/accessors.rs`, which goes through all texels of the source and calls the
original's `write_pixel`. A round has 100 sprites of a whole texture, anywhere on the plane if nothing else is said. The two triangles have the same
texture, and the original covers the same pixels with them: this is counted. A pixel is one on the plane.
";

fn run() -> Result<(), String> {
    let arguments = Arguments::parse(&std::env::args().skip(1).collect::<Vec<_>>())?;
    arguments.expect(0, &["scenes", "out", "machine", "compilers", "passes", "only"])?;
    let mut port = Port::new();
    let passes = arguments.number("passes", 7)?;
    println!("# How long it takes beside the original\n\nMade by `oracle/bench --passes {passes} >docs/BENCH.md`. {HEAD}");
    print_machine(&arguments)?;
    println!("{ABOUT_WORKS}");
    table(&mut port, &works::all(arguments.wanted("scenes")?)?, &arguments)?;
    println!("{ABOUT_GROWTH}");
    table(&mut port, &works::growing(), &arguments)?;
    println!("{ABOUT_SPRITES}");
    table(&mut port, &sprites::all()?, &arguments)
}

fn main() {
    if let Err(message) = run() {
        eprintln!("bench: {message}");
        std::process::exit(1);
    }
}
