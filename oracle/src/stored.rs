//! The streams that are stored for the program `replay`: some by hand, the rest from the generator.

mod cases;
mod extras;
mod refusals;
mod scene;
mod sprites;
mod traps;

use crate::cuts::few_calls;
use crate::profiles::{Profile, PROFILES};
use crate::random::Random;
use crate::replay::Stored;
use crate::steps::ROOM;
use crate::streams::{Command, Stream};

const SEED: u64 = 20;
const MOST_CALLS: usize = 12;

/// Words of either store of `replay`.
const STORE: u32 = 28 * 1_170;

pub fn all() -> Vec<Stored> {
    let mut streams = cases::cases();
    streams.extend(traps::traps());
    streams.extend(refusals::refusals());
    streams.extend(extras::extras());
    streams.extend(PROFILES.iter().filter(|profile| profile.inside_domain).flat_map(generated));
    streams.extend(sprites::refused());
    streams
}

/// How many streams of a profile are stored. One of `largest` would be longer than all of them together.
fn count(profile: &Profile) -> u64 {
    match profile.name {
        "largest" => 0,
        "large" | "full" | "resend" => 2,
        "sprites" => 10,
        "mixed" => 16,
        _ => 8,
    }
}

/// Uploads that no draw asks for. They leave as many words of `replay`'s stores as `resend` fills.
fn ballast() -> Vec<u32> {
    let words = STORE - ROOM;
    let rows = 2 * words / 1024;
    let texture = |number, width: u32, height| {
        Command::texture(number, width, height, &vec![0; (width * height).div_ceil(2) as usize])
    };
    let model = [vec![0xba11_a570, words / 28], vec![0; words as usize]].concat();
    let mut stream = Stream::default();
    stream.send(&texture(0xba11_a570, 1024, rows));
    stream.send(&texture(0xba11_a571, 2 * words - 1024 * rows, 1));
    stream.send(&Command { opcode: 0x1a, payload: model });
    stream.words
}

fn generated(profile: &Profile) -> Vec<Stored> {
    let before = if profile.name == "resend" { ballast() } else { Vec::new() };
    let stored = |index| {
        let stream = Stream::framed([before.clone(), profile.calls(SEED, index).concat()].concat());
        let mut random = Random::named("stored", SEED, index);
        let calls = few_calls(&stream, MOST_CALLS, &mut random);
        Stored { name: format!("{}-{index:02}", profile.name), calls }
    };
    (0..count(profile)).map(stored).collect()
}
