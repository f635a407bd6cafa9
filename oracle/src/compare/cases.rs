//! What is compared: a stream of each profile in turn, some with sprites put in, some damaged, cut in any way, with stores
//! that are often too small.

use vpu_oracle::cuts::{few_calls, Cut};
use vpu_oracle::damage::{odd_matrix, spoil};
use vpu_oracle::judge::Start;
use vpu_oracle::profiles::{Profile, PROFILES};
use vpu_oracle::random::Random;
use vpu_oracle::sprites::scatter;
use vpu_oracle::streams::Stream;

/// One turn of the profiles in so many has a stream of `largest`, which takes as long as hundreds of others.
const LARGEST_EVERY: u64 = 100;

/// Calls of a stream, at most, if it is not cut into words.
const MOST_CALLS: usize = 12;

pub struct Case {
    pub start: Start,
    pub calls: Vec<Vec<u32>>,
    /// Before which calls something is tried that has to be refused.
    pub tries: Vec<usize>,
    pub random: Random,
}

/// Profile, seed and index determine the stream; seed and index determine the rest.
pub fn case(seed: u64, index: u64) -> Case {
    let mut random = Random::named("compare", seed, index);
    let profile = profile(index);
    let (mut stream, _) = profile.stream(seed, index);
    if random.chance(30) {
        scatter(&mut stream, &mut random);
    }
    match random.below(100) {
        0..=11 => spoil(&mut stream, &mut random),
        12..=19 => odd_matrix(&mut stream, &mut random),
        _ => {}
    }
    let start = Start { stores: stores(profile, &mut random), status: status(&mut random) };
    let calls = cut(&stream, &mut random);
    let tries = if random.chance(60) { 1 + random.below(3) } else { 0 };
    let tries = (0..tries).map(|_| random.below(calls.len() as u32) as usize).collect();
    Case { start, calls, tries, random }
}

fn profile(index: u64) -> &'static Profile {
    let (turn, place) = (index / PROFILES.len() as u64, index as usize % PROFILES.len());
    let profile = &PROFILES[place];
    if profile.name == "largest" && turn % LARGEST_EVERY != 0 {
        return PROFILES.iter().find(|profile| profile.name == "mixed").unwrap_or(profile);
    }
    profile
}

/// Mostly enough words; otherwise each store by itself has room for between none and a few uploads.
fn stores(profile: &Profile, random: &mut Random) -> [usize; 2] {
    if random.chance(70) {
        return [profile.store(); 2];
    }
    [0; 2].map(|_| match random.below(5) {
        0 => random.below(3) as usize,
        1 => random.below(60) as usize,
        2 => 28 * random.below(12) as usize,
        3 => random.below(1_000) as usize,
        _ => profile.store(),
    })
}

fn status(random: &mut Random) -> u32 {
    if random.chance(15) {
        random.word()
    } else {
        0
    }
}

fn cut(stream: &Stream, random: &mut Random) -> Vec<Vec<u32>> {
    if stream.words.len() < 120 && random.chance(50) {
        return Cut::Words.apply(stream, random);
    }
    few_calls(stream, MOST_CALLS, random)
}
