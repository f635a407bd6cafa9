//! Single draws, one after the other, on machines that are reset now and then.

use crate::arguments::Arguments;
use crate::differences::Differences;
use crate::sides::Sides;
use vpu_oracle::judge::Start;
use vpu_oracle::random::Random;
use vpu_oracle::singles::{families, largest_upload, single, Family, Meant, Single, KINDS};
use vpu_oracle::watch::Watch;

/// The clear before a draw on a machine that was used before.
const CLEAR: [u32; 4] = [0x0400_0003, 3, 0x1357_9b00, 0];

/// Both sides, and their calls since the last reset.
struct Machine {
    sides: Sides,
    start: Start,
    /// The call after each reset.
    first: Vec<u32>,
    /// How many draws at most are between two resets, and how probable one is before each draw, in percent.
    most: usize,
    often: u32,
    calls: Vec<Vec<u32>>,
}

impl Machine {
    fn new(words: usize, first: Vec<u32>, most: usize, often: u32) -> Self {
        let start = Start { stores: [words, 65_536], status: 0 };
        Self { sides: Sides::new(), start, first, most, often, calls: Vec::new() }
    }

    fn draws(&self) -> usize {
        self.calls.len() / 2
    }

    /// Resets both sides if it is time to, or if the status would hide a refusal; returns what differs afterwards, if anything.
    fn renew(&mut self, random: &mut Random) -> Option<String> {
        let used_up = self.calls.is_empty() || self.draws() == self.most || self.sides.judge.status != 0;
        if !used_up && !random.chance(self.often) {
            return None;
        }
        self.calls = vec![self.first.clone()];
        self.sides.reset(self.start).or_else(|| self.sides.feed(&self.first, &mut Watch::default()))
    }

    /// Feeds the settings and then the draw, and compares both sides; returns what differs, and whether the plane changed.
    fn compare(&mut self, single: Single, meant: Option<Meant>) -> (Option<String>, bool) {
        let clear = if self.draws() == 0 { &[][..] } else { &CLEAR };
        let (settings, draw, watch) =
            ([clear, &single.settings].concat(), single.draw, &mut Watch::default());
        let answer = self.sides.prepare(&settings, watch);
        let read = meant.and_then(|_| self.sides.judge.reader().sprite(&draw[1..]));
        let before = self.sides.judge.original.plane().to_vec();
        let what = answer.or_else(|| self.sides.feed(&draw, watch)).or_else(|| self.sides.other_pixel());
        let changed = before != self.sides.judge.original.plane();
        self.calls.extend([settings, draw]);
        (what.or_else(|| meant?.wrong(read, changed)), changed)
    }

    /// One draw; what differs goes to the differences. Returns whether the plane changed.
    fn draw(&mut self, single: Single, meant: Option<Meant>, all: &mut Singles) -> bool {
        let what = self.renew(&mut all.random);
        let (other, changed) = self.compare(single, meant);
        if let Some(what) = what.or(other) {
            all.differences.add(&mut self.sides, self.start, &self.calls, what);
            self.calls.clear();
        }
        changed
    }
}

/// How many draws there were, and how many changed a pixel.
#[derive(Clone, Copy, Default)]
struct Count {
    draws: u64,
    changed: u64,
}

impl Count {
    fn add(&mut self, changed: bool) {
        self.draws += 1;
        self.changed += changed as u64;
    }

    fn print(&self, name: &str) {
        println!("{name} {:9} draws, {:9} changed a pixel", self.draws, self.changed);
    }

    fn mostly_seen(&self) -> bool {
        self.changed * 2 > self.draws
    }
}

/// What was seen of all single draws.
struct Singles {
    random: Random,
    differences: Differences,
    kinds: [Count; KINDS.len()],
    families: Vec<Count>,
}

impl Singles {
    fn add(&mut self, opcode: u8, family: Option<usize>, changed: bool) {
        let place = KINDS.iter().position(|kind| *kind == opcode).unwrap_or(0);
        self.kinds[place].add(changed);
        if let Some(family) = family {
            self.families[family].add(changed);
        }
    }

    /// Prints the families of sprites; returns whether most of each that is meant to be seen are.
    fn print_families(&self, families: &[Family]) -> bool {
        let mut seen = true;
        for (family, count) in families.iter().zip(&self.families) {
            count.print(&format!("  {:74}", family.name));
            seen &= count.draws == 0 || family.meant != Meant::Seen || count.mostly_seen();
        }
        seen
    }

    /// Prints the counts; returns whether enough of the draws changed a pixel.
    fn print(&self, families: &[Family]) -> bool {
        let sprites = self.families.iter().any(|count| count.draws > 0);
        let seen = !sprites || self.print_families(families);
        let mut all = Count::default();
        for (opcode, count) in KINDS.iter().zip(self.kinds).filter(|(_, count)| count.draws > 0) {
            count.print(&format!("{opcode:02x}"));
            all.draws += count.draws;
            all.changed += count.changed;
        }
        let share = 100.0 * all.changed as f64 / all.draws.max(1) as f64;
        println!("all {} single draws, {} changed a pixel, {share:.1} %", all.draws, all.changed);
        seen && all.mostly_seen()
    }
}

/// The kinds that take turns: all, or the one that is asked for.
fn kinds(arguments: &Arguments) -> Result<Vec<u8>, String> {
    let Some(text) = arguments.option("only") else { return Ok(KINDS.to_vec()) };
    let found = KINDS.into_iter().find(|kind| format!("{kind:02x}") == text.to_lowercase());
    found.map(|kind| vec![kind]).ok_or(format!("--only {text}: no such draw"))
}

pub fn compare_singles(arguments: &Arguments, file: &str) -> Result<bool, String> {
    let (count, seed) = (arguments.number("singles", 0)?, arguments.number("seed", 1)?);
    let (kinds, families) = (kinds(arguments)?, families());
    let mut all = Singles {
        random: Random::named("machines", seed, 0),
        differences: Differences::default(),
        kinds: Default::default(),
        families: vec![Count::default(); families.len()],
    };
    let mut usual = Machine::new(65_536, Vec::new(), 16, 50);
    let mut largest = Machine::new(600_000, largest_upload(seed), 100, 0);
    for index in 0..count {
        let single = single(&kinds, &families, seed, index);
        let (opcode, place) = (single.opcode, single.family);
        let family = place.map(|place| &families[place]);
        let machine = if family.is_some_and(Family::on_largest) { &mut largest } else { &mut usual };
        let changed = machine.draw(single, family.map(|family| family.meant), &mut all);
        all.add(opcode, place, changed);
    }
    let enough = all.print(&families);
    println!("{} differences", all.differences.count);
    Ok(all.differences.report(file)? && enough)
}
