//! Calls that are refused (rule 1.5): a wrong length (1), a malformed state (2), and 1 if both are wrong. State and memory
//! have to stay as they are. There are also states and lengths at the ends of what is allowed.

use crate::port::{Lengths, Slot, State, MOST_STORE};
use crate::sides::{other_answer, Sides};
use vpu_oracle::floats::not_finite;
use vpu_oracle::random::Random;

/// What is fed, and must not be drawn.
const CLEAR: [u32; 4] = [0x0400_0003, 3, 0xffff_ffff, 0];

const MEMORIES: [&str; 6] =
    ["plane", "depths", "float depths", "command area", "texture store", "model store"];

/// Makes a state malformed, or well formed for another store than the one that is then lent; returns false if it cannot.
type Spoil = fn(&mut State, &mut Lengths, &mut Random) -> bool;

const MALFORMED: [(&str, Spoil); 15] = [
    ("matrix not finite", matrix),
    ("light not finite", light),
    ("shading mode above 1", shading),
    ("switch above 1", switch),
    ("opcode above 255", opcode),
    ("words of no command", no_command),
    ("no word wanted", nothing_wanted),
    ("too many words wanted", too_many),
    ("held behind unused", hole),
    ("equal numbers", equal_numbers),
    ("wrong side or count", side),
    ("height of a model", model_height),
    ("wrong start", start),
    ("beyond the store", beyond),
    ("unused not zero", unused),
];

fn matrix(state: &mut State, _: &mut Lengths, random: &mut Random) -> bool {
    state.matrices[random.below(48) as usize] = not_finite(random);
    true
}

fn light(state: &mut State, _: &mut Lengths, random: &mut Random) -> bool {
    let light = &mut state.lights[random.below(8) as usize];
    let terms = [
        &mut light.ambient,
        &mut light.diffuse,
        &mut light.specular,
        &mut light.emission,
        &mut light.position,
    ];
    let [term, channel] = [random.below(5), random.below(3)].map(|place| place as usize);
    terms[term][channel] = not_finite(random);
    true
}

fn shading(state: &mut State, _: &mut Lengths, random: &mut Random) -> bool {
    state.shading_mode = random.pick(&[2, 3, 0x100, u32::MAX]);
    true
}

fn switch(state: &mut State, _: &mut Lengths, random: &mut Random) -> bool {
    let value = random.pick(&[2, 3, 0x80, 0xff]);
    match random.below(4) {
        0 => state.lighting_enabled = value,
        1 => state.lights[random.below(8) as usize].enabled = value,
        2 => state.textures[random.below(64) as usize].held = value,
        _ => state.models[random.below(64) as usize].held = value,
    }
    true
}

fn begin(state: &mut State, opcode: u32, [gathered, wanted]: [u32; 2]) -> bool {
    (state.opcode, state.gathered, state.wanted) = (opcode, gathered, wanted);
    true
}

fn opcode(state: &mut State, _: &mut Lengths, random: &mut Random) -> bool {
    begin(state, random.pick(&[0x100, 0x101, u32::MAX]), [0, 1])
}

fn no_command(state: &mut State, _: &mut Lengths, random: &mut Random) -> bool {
    begin(state, 0, random.pick(&[[0, 1], [1, 0], [5, 7]]))
}

fn nothing_wanted(state: &mut State, _: &mut Lengths, random: &mut Random) -> bool {
    begin(state, 1 + random.below(255), [random.pick(&[0, 3, 524_291]), 0])
}

fn too_many(state: &mut State, _: &mut Lengths, random: &mut Random) -> bool {
    let pairs =
        [[0, 524_292], [524_291, 1], [u32::MAX, 1], [1, u32::MAX], [0x8000_0000, 0x8000_0000], [524_290, 2]];
    begin(state, 1 + random.below(255), random.pick(&pairs))
}

fn held(slots: &[Slot; 64]) -> usize {
    slots.iter().filter(|slot| slot.held != 0).count()
}

/// The slots of one kind, with at least so many held if there is such a kind, and how many are held.
fn either<'a>(state: &'a mut State, least: usize, random: &mut Random) -> (&'a mut [Slot; 64], usize) {
    let [textures, models] = [held(&state.textures), held(&state.models)];
    if models < least || textures >= least && random.chance(50) {
        (&mut state.textures, textures)
    } else {
        (&mut state.models, models)
    }
}

/// A held slot that would be right one place before.
fn hole(state: &mut State, _: &mut Lengths, random: &mut Random) -> bool {
    let [textures, models] = words_held(state);
    let height = if random.chance(50) { 1 } else { 0 };
    let (slots, start) =
        if height == 1 { (&mut state.textures, textures) } else { (&mut state.models, models) };
    let Some(unused) = slots.iter().position(|slot| slot.held == 0).filter(|place| *place < 63) else {
        return false;
    };
    slots[unused + 1] = Slot { held: 1, number: 0xfeed_0000, width: 1, height, start };
    true
}

fn equal_numbers(state: &mut State, _: &mut Lengths, random: &mut Random) -> bool {
    let (slots, held) = either(state, 2, random);
    if held < 2 {
        return false;
    }
    let one = random.below(held as u32) as usize;
    slots[(one + 1 + random.below(held as u32 - 1) as usize) % held].number = slots[one].number;
    true
}

/// A wrong side in the last slot, so that it puts no other area out of place.
fn side(state: &mut State, _: &mut Lengths, random: &mut Random) -> bool {
    let last = |slots: &[Slot; 64]| slots.iter().rposition(|slot| slot.held == 1);
    let texture = last(&state.textures).map(|place| &mut state.textures[place]);
    let model = last(&state.models).map(|place| &mut state.models[place]);
    match (random.below(3), texture, model) {
        (0, Some(texture), _) => texture.width = random.pick(&[0, 1025, u32::MAX]),
        (1, Some(texture), _) => texture.height = random.pick(&[0, 1025, u32::MAX]),
        (2, _, Some(model)) => model.width = random.pick(&[0, 18_725, u32::MAX]),
        _ => return false,
    }
    true
}

fn model_height(state: &mut State, _: &mut Lengths, random: &mut Random) -> bool {
    let model = &mut state.models[0];
    model.height = random.pick(&[1, u32::MAX]);
    model.held == 1
}

fn start(state: &mut State, _: &mut Lengths, random: &mut Random) -> bool {
    let (slots, held) = either(state, 1, random);
    if held == 0 {
        return false;
    }
    let slot = &mut slots[random.below(held as u32) as usize];
    slot.start = slot.start.wrapping_add(random.pick(&[1, u32::MAX]));
    true
}

/// Words of the textures and of the models that are held.
fn words_held(state: &State) -> [u32; 2] {
    let textures = state.textures.iter().map(|slot| (slot.width * slot.height).div_ceil(2)).sum();
    [textures, state.models.iter().map(|slot| 28 * slot.width).sum()]
}

/// A store is lent one word short of what is held.
fn beyond(state: &mut State, lengths: &mut Lengths, random: &mut Random) -> bool {
    let place = random.below(2) as usize;
    let used = words_held(state)[place] as usize;
    lengths[4 + place] = used.saturating_sub(1);
    used > 0
}

fn unused(state: &mut State, _: &mut Lengths, random: &mut Random) -> bool {
    let (slots, held) = either(state, 0, random);
    if held == 64 {
        return false;
    }
    let slot = &mut slots[held + random.below(64 - held as u32) as usize];
    let field = [&mut slot.number, &mut slot.width, &mut slot.height, &mut slot.start];
    *field.into_iter().nth(random.below(4) as usize).unwrap() = 1;
    true
}

/// Brings a state to the end of what is well formed.
fn extreme(state: &mut State, lengths: &mut Lengths, random: &mut Random) {
    match random.below(5) {
        0 => state.matrices[random.below(48) as usize] = random.pick(&[f32::MAX, f32::MIN]),
        1 => state.lights[random.below(8) as usize].emission = [f32::MAX, f32::MIN, -0.0],
        2 => (state.shading_mode, state.lighting_enabled, state.status) = (1, 1, u32::MAX),
        3 => _ = begin(state, random.pick(&[1, 255]), random.pick(&[[0, 524_291], [524_290, 1]])),
        _ => lengths[4 + random.below(2) as usize] = MOST_STORE,
    }
}

fn wrong_length(lengths: &mut Lengths, random: &mut Random) -> usize {
    let memory = random.below(6) as usize;
    let right = lengths[memory];
    let shorter = random.below(right as u32) as usize;
    lengths[memory] = match memory {
        0..=3 => random.pick(&[right - 1, right + 1, 0, shorter]),
        _ => MOST_STORE + 1,
    };
    memory
}

/// How often each was tried.
#[derive(Default)]
pub struct Refused {
    resets: [u64; 6],
    feeds: [u64; 6],
    pixels: u64,
    malformed: [u64; MALFORMED.len()],
    both: u64,
    extremes: u64,
}

impl Refused {
    /// Tries a call of some kind; returns what is wrong afterwards, if anything.
    pub fn one(&mut self, sides: &mut Sides, random: &mut Random) -> Option<String> {
        let what = match random.below(8) {
            0 => self.reset(sides, random),
            1 => self.feed(sides, random),
            2 => self.pixel(sides, random),
            3 => self.extreme(sides, random),
            _ => self.malformed(sides, random),
        };
        what.or_else(|| sides.difference()).or_else(|| sides.other_area())
    }

    /// The fresh state comes back; no run begins on it.
    fn reset(&mut self, sides: &mut Sides, random: &mut Random) -> Option<String> {
        let mut lengths = sides.port.lengths;
        self.resets[wrong_length(&mut lengths, random)] += 1;
        let (answer, state) = sides.port.try_reset(lengths);
        let fresh = vpu_oracle::judge::Judge::new().state_words();
        other_answer(1, answer).or_else(|| other_state(&state.words(), &fresh))
    }

    fn feed(&mut self, sides: &mut Sides, random: &mut Random) -> Option<String> {
        let mut lengths = sides.port.lengths;
        self.feeds[wrong_length(&mut lengths, random)] += 1;
        fed(sides, sides.port.state, &CLEAR, lengths, 1)
    }

    fn pixel(&mut self, sides: &mut Sides, random: &mut Random) -> Option<String> {
        self.pixels += 1;
        let right = sides.port.plane().len();
        let length = random.pick(&[0, 4, right - 1, right + 1]);
        let answer = sides.port.try_pixel(length, random.below(400) as usize, random.below(300) as usize);
        (answer != (1, (0, 0, 0, 0))).then(|| format!("a pixel of {length} bytes answers {answer:?}"))
    }

    fn extreme(&mut self, sides: &mut Sides, random: &mut Random) -> Option<String> {
        self.extremes += 1;
        let (mut state, mut lengths) = (sides.port.state, sides.port.lengths);
        extreme(&mut state, &mut lengths, random);
        fed(sides, state, &[], lengths, 0)
    }

    fn malformed(&mut self, sides: &mut Sides, random: &mut Random) -> Option<String> {
        let (mut state, mut lengths) = (sides.port.state, sides.port.lengths);
        let kind = random.below(MALFORMED.len() as u32) as usize;
        if !MALFORMED[kind].1(&mut state, &mut lengths, random) {
            return None;
        }
        if random.chance(20) {
            self.both += 1;
            wrong_length(&mut lengths, random);
            return fed(sides, state, &CLEAR, lengths, 1);
        }
        self.malformed[kind] += 1;
        fed(sides, state, &CLEAR, lengths, 2).map(|what| format!("{}, {what}", MALFORMED[kind].0))
    }

    /// Every kind with its count.
    pub fn counts(&self) -> Vec<(String, u64)> {
        let of = |call: &'static str, counts: [u64; 6]| {
            MEMORIES.into_iter().zip(counts).map(move |(memory, count)| (format!("{call}, {memory}"), count))
        };
        let mut all: Vec<(String, u64)> =
            of("1: reset", self.resets).chain(of("1: feed", self.feeds)).collect();
        all.push(("1: pixel, plane".to_string(), self.pixels));
        all.push(("1: feed, malformed too".to_string(), self.both));
        all.extend(
            MALFORMED.iter().zip(self.malformed).map(|((name, _), count)| (format!("2: {name}"), count)),
        );
        all.push(("0: feed at the ends of what is allowed".to_string(), self.extremes));
        all
    }
}

/// Feeds a state of the caller's; returns an answer other than the expected one, or a state other than the given one.
fn fed(sides: &mut Sides, state: State, words: &[u32], lengths: Lengths, expected: u32) -> Option<String> {
    let (answer, after) = sides.port.try_feed(state, words, lengths);
    other_answer(expected, answer).or_else(|| other_state(&after.words(), &state.words()))
}

fn other_state(got: &[u32], expected: &[u32]) -> Option<String> {
    (got != expected).then(|| "another state comes back".to_string())
}
