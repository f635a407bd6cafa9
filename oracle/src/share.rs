//! `oracle share`: how many of the generated commands are accepted, and how many draws change a pixel.

use crate::arguments::Arguments;
use std::collections::BTreeMap;
use vpu_oracle::original::Vpu;
use vpu_oracle::profiles;
use vpu_oracle::stored;
use vpu_oracle::watch::{ended_by, Seen, DRAWS};

#[derive(Default, Clone, Copy)]
struct Count {
    sent: u64,
    accepted: u64,
    changed: u64,
}

impl Count {
    fn add(&mut self, other: &Count) {
        self.sent += other.sent;
        self.accepted += other.accepted;
        self.changed += other.changed;
    }

    fn share(&self) -> String {
        format!(
            "{} of {}, {:.1} %",
            self.changed,
            self.sent,
            100.0 * self.changed as f64 / self.sent.max(1) as f64
        )
    }
}

type Counts = BTreeMap<u8, Count>;

/// The most that a stream asks of the stores: an upload's words with those of all other numbers, and numbers held.
#[derive(Default)]
struct Needs {
    texture_words: usize,
    model_words: usize,
    textures: usize,
    models: usize,
}

#[derive(Default)]
struct Tally {
    counts: Counts,
    needs: Needs,
    streams: u64,
    calls: u64,
    words: u64,
    begun_at_end: u64,
    flat_beyond: u64,
    nan_depths: u64,
    negative_zero_depths: u64,
}

pub fn share(arguments: &Arguments) -> Result<(), String> {
    arguments.expect(0, &["profile", "seed", "count"])?;
    let profile = arguments.wanted("profile")?;
    if profile == "stored" {
        tallied("stored", stored::all().iter().map(|stream| stream.calls.clone()));
        return Ok(());
    }
    let chosen = profiles::named(profile)?;
    let (seed, count) = (arguments.number("seed", 1)?, arguments.number("count", 10)?);
    let mut overall = Counts::new();
    for profile in chosen {
        let tally = tallied(profile.name, (0..count).map(|index| profile.calls(seed, index)));
        for (opcode, count) in &tally.counts {
            overall.entry(*opcode).or_default().add(count);
        }
    }
    println!("all of the above");
    print_counts(&overall);
    println!("overall share of draws that changed a pixel: {}", draws(&overall).share());
    Ok(())
}

/// What these streams reach, counted and printed.
fn tallied(name: &str, streams: impl Iterator<Item = Vec<Vec<u32>>>) -> Tally {
    let mut tally = Tally::default();
    streams.for_each(|calls| tally.run(calls));
    tally.print(name);
    tally
}

impl Tally {
    fn run(&mut self, calls: Vec<Vec<u32>>) {
        let words = calls.concat();
        self.streams += 1;
        self.calls += calls.len() as u64;
        self.words += words.len() as u64;
        let mut vpu = Vpu::new();
        let mut seen = Seen::of(&vpu);
        for word in words {
            self.feed(&mut vpu, word, &mut seen);
        }
        self.begun_at_end += vpu.begun().is_some() as u64;
    }

    /// Feeds one word; when it ends a command, counts the command.
    fn feed(&mut self, vpu: &mut Vpu, word: u32, seen: &mut Seen) {
        if let Some((opcode, _, 1)) = vpu.begun() {
            self.look_ahead(vpu, opcode);
        }
        vpu.set_status(0);
        let Some(opcode) = ended_by(vpu, word) else { return };
        let count = self.counts.entry(opcode).or_default();
        count.sent += 1;
        count.accepted += (vpu.status() == 0) as u64;
        count.changed += seen.changed(vpu) as u64;
        if DRAWS.contains(&opcode) {
            self.look_at_depths(vpu);
        }
    }

    fn look_at_depths(&mut self, vpu: &Vpu) {
        let depths = vpu.depth_f32();
        self.nan_depths += depths.iter().any(|depth| depth.is_nan()) as u64;
        self.negative_zero_depths += depths.iter().any(|depth| depth.to_bits() == 0x8000_0000) as u64;
    }

    /// One payload word is missing: what will the command ask of the stores, and is it inside the domain?
    fn look_ahead(&mut self, vpu: &Vpu, opcode: u8) {
        let gathered = vpu.gathered();
        match opcode {
            0x12 if gathered.len() == 10 => {
                let far = |word: &u32| !(-8192..=8192).contains(&(*word as i32));
                self.flat_beyond += gathered[..9].chunks(3).any(|corner| corner[..2].iter().any(far)) as u64;
            }
            0x17 => self.needs.texture(vpu, gathered.len().saturating_sub(2)),
            0x1a => self.needs.model(vpu, gathered.len().saturating_sub(1)),
            _ => {}
        }
    }

    fn print(&self, name: &str) {
        println!(
            "{}: {} streams, {} calls, {} words; {} end inside a command; {} flat triangles beyond 8192",
            name, self.streams, self.calls, self.words, self.begun_at_end, self.flat_beyond
        );
        println!(
            "  stores: at most {} words for {} textures, {} words for {} models",
            self.needs.texture_words, self.needs.textures, self.needs.model_words, self.needs.models
        );
        println!(
            "  draws after which a float depth is NaN: {}, is -0.0: {}",
            self.nan_depths, self.negative_zero_depths
        );
        print_counts(&self.counts);
    }
}

impl Needs {
    fn texture(&mut self, vpu: &Vpu, new_words: usize) {
        let numbers = vpu.texture_numbers();
        let others = others(&numbers, vpu.gathered()).filter_map(|number| vpu.texture(number));
        let beside: usize = others.map(|(width, height, _)| (width * height).div_ceil(2)).sum();
        self.texture_words = self.texture_words.max(beside + new_words);
        self.textures = self.textures.max(held_after(&numbers, vpu.gathered()));
    }

    fn model(&mut self, vpu: &Vpu, new_words: usize) {
        let numbers = vpu.model_numbers();
        let others = others(&numbers, vpu.gathered()).filter_map(|number| vpu.model(number));
        self.model_words = self.model_words.max(others.map(<[u32]>::len).sum::<usize>() + new_words);
        self.models = self.models.max(held_after(&numbers, vpu.gathered()));
    }
}

/// The numbers that the upload with this payload does not replace.
fn others<'a>(numbers: &'a [u32], payload: &[u32]) -> impl Iterator<Item = u32> + 'a {
    let own = payload.first().copied();
    numbers.iter().copied().filter(move |number| Some(*number) != own)
}

/// How many numbers are held when the upload with this payload is accepted.
fn held_after(numbers: &[u32], payload: &[u32]) -> usize {
    let new = payload.first().is_some_and(|number| !numbers.contains(number));
    numbers.len() + new as usize
}

fn draws(counts: &Counts) -> Count {
    let mut all = Count::default();
    counts.iter().filter(|(opcode, _)| DRAWS.contains(opcode)).for_each(|(_, count)| all.add(count));
    all
}

/// A row for each command that the machine knows; all other opcodes in one row.
fn print_counts(counts: &Counts) {
    const KNOWN: [u8; 13] = [0x01, 0x02, 0x04, 0x10, 0x12, 0x14, 0x15, 0x16, 0x17, 0x18, 0x19, 0x1a, 0x1b];
    println!("  {:>7} {:>8} {:>8} {:>8}", "command", "sent", "accepted", "changed");
    let mut other = Count::default();
    for (opcode, count) in counts {
        if KNOWN.contains(opcode) {
            print_row(&format!("{opcode:02x}"), count);
        } else {
            other.add(count);
        }
    }
    print_row("other", &other);
    println!("  draws that changed a pixel: {}", draws(counts).share());
}

fn print_row(name: &str, count: &Count) {
    println!("  {name:>7} {:>8} {:>8} {:>8}", count.sent, count.accepted, count.changed);
}
