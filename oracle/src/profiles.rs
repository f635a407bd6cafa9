//! The named kinds of streams.

use crate::cuts::Cut;
use crate::maker::Maker;
use crate::random::Random;
use crate::steps;
use crate::streams::Stream;

pub type Step = fn(&mut Maker);

pub struct Profile {
    pub name: &'static str,
    pub about: &'static str,
    /// No flat coordinate beyond 8192 either way, never more than 64 numbers held, and room for every upload.
    pub inside_domain: bool,
    step: Step,
    steps: u32,
}

const fn profile(name: &'static str, step: Step, steps: u32, about: &'static str) -> Profile {
    Profile { name, about, inside_domain: true, step, steps }
}

const fn outside(profile: Profile) -> Profile {
    Profile { inside_domain: false, ..profile }
}

#[rustfmt::skip]
pub static PROFILES: [Profile; 25] = [
    profile("clear", steps::clears, 14,
        "clears with every flag value, known or not, between draws"),
    profile("settings", steps::settings, 20,
        "shading mode, lighting, lights, matrices; values out of range; a draw after each"),
    profile("flat", steps::flat, 40,
        "flat triangles of all sizes, some without area, all kinds of depth and shade"),
    profile("flat-sides", steps::flat_sides, 30,
        "flat triangles that leave the screen on each side, to -8192 and 8192"),
    outside(profile("flat-beyond", steps::flat_beyond, 30,
        "flat coordinates at and beyond 8192, which the port refuses")),
    profile("transformed", steps::transformed, 40,
        "14 and 16 in both shading modes, lit and unlit, three cameras"),
    profile("textured", steps::textured, 40,
        "18 and 19 in modes 0 to 2, lit and unlit, three cameras"),
    profile("models", steps::models, 20,
        "models sent, sent again and drawn in modes 0 to 2; records that are refused"),
    profile("uploads", steps::uploads, 16,
        "textures of many shapes, sent again under the same numbers, each drawn at once"),
    profile("numbers", steps::numbers, 24,
        "numbers of textures and models that agree in their low or in their high bits"),
    profile("clipping", steps::clipping, 40,
        "corners on, just beyond and far beyond each of the six planes, one and several at a time"),
    profile("matrices", steps::matrices, 12,
        "near-singular, singular, huge, subnormal and arbitrary matrices"),
    profile("specials", steps::specials, 20,
        "zeros, subnormals, limits, infinities and NaN in positions, normals and texture coordinates"),
    profile("extremes", steps::extremes, 12,
        "positions of any magnitude and beyond, areas near 2^-23, draws that store NaN or -0.0 as a depth"),
    profile("damaged", steps::damaged, 16,
        "every command wrong in one place: length, range, not finite, opcode, sizes that wrap"),
    profile("framing", steps::framing, 16,
        "zero opcodes, count 0, counts too large, unknown opcodes, an end inside a payload"),
    profile("cuts", steps::cuts, 16,
        "short streams of everything; each way of cutting in turn"),
    profile("mixed", steps::mixed, 30,
        "steps of all the profiles above that stay inside the domain"),
    profile("largest", steps::largest, 1,
        "a 1024 by 1024 texture and a model of 18,724 triangles"),
    profile("large", steps::large, 1,
        "a 256 by 200 texture and a model of 700 triangles"),
    profile("full", steps::full, 1,
        "64 textures and 64 models, as many as the port holds, some of them sent again"),
    profile("resend", steps::resend, 1,
        "stores filled to the last word; uploads sent again, as large as there is room"),
    outside(profile("overfull", steps::overfull, 1,
        "the same, with uploads that are one word or one triangle too large")),
    outside(profile("crowded", steps::crowded, 1,
        "70 textures and 70 models, more than the port holds")),
    profile("sprites", steps::sprites, 20,
        "sprites at, over and beyond every edge of the plane and of a texture, and wrong ones, among triangles and clears"),
];

/// The profile of a name, or all of them for `all`.
pub fn named(name: &str) -> Result<Vec<&'static Profile>, String> {
    let found: Vec<_> = PROFILES.iter().filter(|profile| name == "all" || profile.name == name).collect();
    if found.is_empty() {
        return Err(format!("no profile {name:?}; `oracle profiles` lists them"));
    }
    Ok(found)
}

impl Profile {
    /// Words of either store: more than the profile needs, or, if it fills them, exactly as many.
    pub fn store(&self) -> usize {
        match self.name {
            "largest" => 1_200_000,
            "sprites" => 600_000,
            "resend" | "overfull" => steps::ROOM as usize,
            _ => 65_536,
        }
    }

    /// Some streams are short: after its first refusal a stream no longer shows later ones in the status.
    fn steps(&self, random: &mut Random) -> u32 {
        if random.chance(25) {
            self.steps.min(1 + random.below(3))
        } else {
            self.steps
        }
    }

    /// Stream number `index` under `seed`, not yet cut, and the generator as the stream leaves it.
    pub fn stream(&self, seed: u64, index: u64) -> (Stream, Random) {
        let mut maker = Maker::new(Random::named(self.name, seed, index));
        if maker.random.chance(70) {
            maker.any_camera();
        }
        for _ in 0..self.steps(&mut maker.random) {
            (self.step)(&mut maker);
        }
        if ["damaged", "framing", "mixed"].contains(&self.name) && maker.random.chance(70) {
            steps::broken_end(&mut maker);
        }
        (maker.stream, maker.random)
    }

    /// The calls of stream number `index` under `seed`.
    pub fn calls(&self, seed: u64, index: u64) -> Vec<Vec<u32>> {
        let (stream, mut random) = self.stream(seed, index);
        let cut = if self.name == "cuts" {
            Cut::ALL[index as usize % Cut::ALL.len()]
        } else {
            Cut::usual(&mut random)
        };
        cut.apply(&stream, &mut random)
    }
}
