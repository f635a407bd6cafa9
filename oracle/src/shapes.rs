//! Triangles for the drawing functions, one for each name, seed and index. The index decides the family, the random
//! numbers the rest; small ones are the most frequent, so that many can be drawn.

use crate::floats::*;
use crate::original::{VertexFloats, Vpu};
use crate::random::Random;
use crate::streams::{Command, Stream};

/// What is drawn: a flat triangle, a transformed one, or a textured one of some mode.
#[derive(Clone, Copy, PartialEq)]
pub enum Kind {
    Flat,
    Beyond,
    Plain,
    Blended,
    Textured(u32),
}

pub const KINDS: [(&str, Kind); 7] = [
    ("flat", Kind::Flat),
    ("flat-beyond", Kind::Beyond),
    ("transformed-flat", Kind::Plain),
    ("transformed", Kind::Blended),
    ("textured-0", Kind::Textured(0)),
    ("textured-1", Kind::Textured(1)),
    ("textured-2", Kind::Textured(2)),
];

/// How far a flat coordinate may be from 0 (rule 4.2 of docs/RULES.md), and a sprite's target.
pub const FLAT_REACH: i32 = 8192;

/// The words of command 12 that are coordinates.
pub const COORDINATES: [usize; 6] = [0, 1, 3, 4, 6, 7];

pub const WIDTH: f32 = 320.0;
pub const HEIGHT: f32 = 240.0;

// Flat triangles

fn flat_reach(random: &mut Random) -> i32 {
    match random.below(200) {
        0..=119 => random.between(1, 12),
        120..=174 => random.between(8, 40),
        175..=193 => random.between(30, 100),
        194..=198 => random.between(80, 400),
        _ => random.between(300, 4000),
    }
}

/// On the screen; one in eight is about a side of it.
fn middle(random: &mut Random, reach: i32) -> [i32; 2] {
    let mut at = [random.between(0, 319), random.between(0, 239)];
    if random.chance(12) {
        let axis = random.below(2) as usize;
        at[axis] = random.pick(&[-reach / 2, [319, 239][axis] + reach / 2]);
    }
    at
}

fn flat_depths(random: &mut Random) -> [u32; 3] {
    let extremes = [i32::MAX, i32::MIN, i32::MAX - 1, i32::MIN + 1, 0, 1, -1];
    match random.below(10) {
        0 => [random.between(-9, 9) as u32; 3],
        1 => std::array::from_fn(|_| random.pick(&extremes) as u32),
        2 => std::array::from_fn(|_| random.word()),
        3 => std::array::from_fn(|_| random.between(-3, 3) as u32),
        _ => std::array::from_fn(|_| random.between(-1000, 1000) as u32),
    }
}

fn flat_corners(random: &mut Random) -> [[i32; 2]; 3] {
    let reach = flat_reach(random);
    let [x, y] = middle(random, reach);
    let mut corners: [[i32; 2]; 3] =
        std::array::from_fn(|_| [x + random.between(-reach, reach), y + random.between(-reach, reach)]);
    match random.below(20) {
        0 => corners[2][0] = corners[0][0],
        1 => corners[2][1] = corners[1][1],
        2 => corners = [[x, y], [x + reach, y], [x, y + reach]],
        3 => corners[2] = corners[random.below(2) as usize].map(|value| value + random.between(-1, 1)),
        4 => corners[2] = [0, 1].map(|axis| 2 * corners[1][axis] - corners[0][axis] + random.between(-1, 1)),
        5 => corners[1] = [x + random.between(-2, 2) * reach / 2, y],
        _ => (),
    }
    if random.chance(50) {
        corners.swap(0, 1);
    }
    corners
}

/// The payload of command 12, inside the reach.
pub fn flat(seed: u64, index: u64) -> [u32; 11] {
    let random = &mut Random::named("flat triangle", seed, index);
    let corners = flat_corners(random);
    let depths = flat_depths(random);
    let mut words = [0; 11];
    for corner in 0..3 {
        words[corner * 3] = corners[corner][0].clamp(-FLAT_REACH, FLAT_REACH) as u32;
        words[corner * 3 + 1] = corners[corner][1].clamp(-FLAT_REACH, FLAT_REACH) as u32;
        words[corner * 3 + 2] = depths[corner];
    }
    words[9] = random.word();
    let shade = random.below(256);
    words[10] = random.pick(&[255, 255, 128, 0, 1, 254, 256, u32::MAX, shade]);
    words
}

/// As `flat`, with one to three coordinates at the reach, just beyond it, or far beyond it.
pub fn flat_beyond(seed: u64, index: u64) -> [u32; 11] {
    let random = &mut Random::named("flat beyond", seed, index);
    let mut words = flat(seed, index);
    for _ in 0..random.between(1, 3) {
        let far = [FLAT_REACH, FLAT_REACH + 1, 8191, 16384, i32::MAX, i32::MIN, -FLAT_REACH, -FLAT_REACH - 1];
        words[random.pick(&COORDINATES)] = random.pick(&far) as u32;
    }
    words
}

/// The first coordinate out of reach, in payload order: rule 4.2.
pub fn out_of_reach(words: &[u32]) -> Option<usize> {
    let beyond = |at: &usize| (words[*at] as i32).unsigned_abs() > FLAT_REACH as u32;
    COORDINATES.into_iter().find(beyond)
}

// Triangles of floats

/// Three corners, and the colour for triangles that are drawn in one colour.
#[derive(Clone, Copy)]
pub struct Shape {
    pub corners: [VertexFloats; 3],
    pub color: [f32; 4],
}

/// A coordinate that is projected exactly onto the middle of pixel k, if there is one.
fn centred(k: i32, side: f32) -> f32 {
    let wanted = k as f32 + 0.5;
    let near = wanted / (side * 0.5) - 1.0;
    let neighbour = |by: i32| f32::from_bits((near.to_bits() as i32).wrapping_add(by) as u32);
    (-4..=4).map(neighbour).find(|x| (x + 1.0) * (side * 0.5) == wanted).unwrap_or(near)
}

fn placed(x: f32, y: f32) -> [f32; 2] {
    [x / (WIDTH * 0.5) - 1.0, 1.0 - y / (HEIGHT * 0.5)]
}

/// Places in the view; those from -1 to 1 are on the screen.
fn places(random: &mut Random, family: u64) -> [[f32; 2]; 3] {
    let reach = match family {
        10 if random.chance(20) => random.float(40.0, 120.0),
        11 if random.chance(10) => random.pick(&[300.0, 1000.0, 1e5, 1e9]),
        8..=11 => random.float(8.0, 30.0),
        _ => random.float(1.0, 12.0),
    };
    let (mut x, mut y) = (random.float(0.0, WIDTH), random.float(0.0, HEIGHT));
    if family == 9 {
        match random.below(4) {
            0 => x = -0.3 * reach,
            1 => x = WIDTH + 0.3 * reach,
            2 => y = -0.3 * reach,
            _ => y = HEIGHT + 0.3 * reach,
        }
    }
    let mut at: [[f32; 2]; 3] =
        std::array::from_fn(|_| placed(x + random.float(-reach, reach), y + random.float(-reach, reach)));
    match family {
        5 | 6 => {
            let (left, top, reach) = (x as i32, y as i32, reach as i32);
            at = std::array::from_fn(|_| {
                let column = left + random.between(-reach, reach);
                [centred(column, WIDTH), -centred(top + random.between(-reach, reach), HEIGHT)]
            });
            if family == 6 {
                at[2] = [at[0][0], at[1][1]];
            }
        }
        7 => at[2] = sliver(random, at),
        _ => (),
    }
    at
}

/// Near the line through the first two, or on it; or almost at one of them.
fn sliver(random: &mut Random, at: [[f32; 2]; 3]) -> [f32; 2] {
    let along = random.float(-1.0, 2.0);
    let off = random.pick(&[0.0, 1e-7, 1e-6, 1e-4, 1e-3, 5e-3, 1e-2, 1e-2]);
    [0, 1].map(|axis| at[0][axis] + along * (at[1][axis] - at[0][axis]) + off * random.float(-1.0, 1.0))
}

/// The depth that is stored for each corner; the position has this times w.
fn depths(random: &mut Random) -> [f32; 3] {
    match random.below(20) {
        0 => random.floats(-0.5, 0.5),
        1 => random.floats(0.5, 1.5),
        2 => std::array::from_fn(|_| random.pick(&[0.0, -0.0, 1.0])),
        3 => [random.pick(&[0.0, -0.0, 0.5, 1.0, 0.99999994]); 3],
        4 => std::array::from_fn(|_| special(random)),
        5 | 6 => [random.unit(); 3],
        _ => random.floats(0.0, 1.0),
    }
}

fn ws(random: &mut Random, family: u64) -> [f32; 3] {
    let epsilon = f32::EPSILON;
    let tiny = [epsilon, f32::from_bits(epsilon.to_bits() + 1), epsilon * 2.0, epsilon * 0.5, 1e-6, 1e-30];
    match family {
        5 | 6 => [power_of_two(random.between(-2, 3)); 3],
        12 => std::array::from_fn(|_| random.pick(&tiny)),
        13 => std::array::from_fn(|_| any_magnitude(random).abs()),
        0 | 1 => [1.0; 3],
        _ => random.floats(0.2, 4.0),
    }
}

fn color(random: &mut Random) -> [f32; 4] {
    match random.below(10) {
        0 => random.floats(-1.0, 2.0),
        1 => std::array::from_fn(|_| random.pick(&[0.0, -0.0, 1.0, 0.5, f32::NAN, 2.0, -1.0, f32::INFINITY])),
        2 => std::array::from_fn(|_| random.below(256) as f32 / 255.0),
        3 if random.chance(30) => std::array::from_fn(|_| any_magnitude(random)),
        _ => random.floats(0.0, 1.0),
    }
}

fn texture_place(random: &mut Random) -> [f32; 2] {
    match random.below(20) {
        0 => [special(random), random.unit()],
        1 => [random.unit(), special(random)],
        2 => [any_magnitude(random), any_magnitude(random)],
        3..=6 => random.floats(-3.0, 4.0),
        7..=9 => std::array::from_fn(|_| random.between(-1, 9) as f32 / 8.0),
        _ => random.floats(0.0, 1.0),
    }
}

/// A triangle of clipped vertices. What no rasteriser reads is filled too.
pub fn shape(name: &str, seed: u64, index: u64) -> Shape {
    let random = &mut Random::named(name, seed, index);
    let family = index % 15;
    let (at, w, depth) = (places(random, family), ws(random, family), depths(random));
    let same = random.chance(15).then(|| color(random));
    let mut corners = [[0.0; 16]; 3];
    for (k, corner) in corners.iter_mut().enumerate() {
        corner[..4].copy_from_slice(&[at[k][0] * w[k], at[k][1] * w[k], depth[k] * w[k], w[k]]);
        corner[4..10].copy_from_slice(&random.floats::<6>(-1.0, 1.0));
        corner[10..14].copy_from_slice(&same.unwrap_or_else(|| color(random)));
        corner[14..].copy_from_slice(&texture_place(random));
    }
    if family == 14 {
        for _ in 0..random.between(1, 2) {
            let value = random.pick(&[special as fn(&mut Random) -> f32, not_finite, any_magnitude])(random);
            corners[random.below(3) as usize][random.below(4) as usize] = value;
        }
    }
    if random.chance(50) {
        corners.swap(0, 1);
    }
    Shape { corners, color: color(random) }
}

// A triangle of either kind

pub enum Triangle {
    Words([u32; 11]),
    Floats(Shape),
}

impl Triangle {
    pub fn new(kind: Kind, seed: u64, index: u64) -> Self {
        match kind {
            Kind::Flat => Self::Words(flat(seed, index)),
            Kind::Beyond => Self::Words(flat_beyond(seed, index)),
            Kind::Plain => Self::Floats(shape("transformed-flat", seed, index)),
            Kind::Blended => Self::Floats(shape("transformed", seed, index)),
            Kind::Textured(mode) => Self::Floats(shape("textured", seed + mode as u64, index)),
        }
    }

    /// The payload, or three corners of 16 and the colour.
    pub fn words(&self) -> Vec<u32> {
        match self {
            Self::Words(words) => words.to_vec(),
            Self::Floats(shape) => {
                let floats = [&shape.corners.concat()[..], &shape.color].concat();
                floats.iter().map(|float| float.to_bits()).collect()
            }
        }
    }

    /// The rows that it can touch, first and one past the last: all rows if a place is not finite.
    pub fn rows(&self) -> (usize, usize) {
        let ys = match self {
            Self::Words(words) => [1, 4, 7].map(|at| words[at] as i32 as f32),
            Self::Floats(shape) => shape.corners.map(|corner| (1.0 - corner[1] / corner[3]) * (HEIGHT * 0.5)),
        };
        if ys.iter().any(|y| !y.is_finite()) {
            return (0, HEIGHT as usize);
        }
        let low = ys.iter().copied().fold(f32::INFINITY, f32::min) - 1.0;
        let high = ys.iter().copied().fold(f32::NEG_INFINITY, f32::max) + 2.0;
        let first = low.clamp(0.0, HEIGHT) as usize;
        (first, (high.clamp(0.0, HEIGHT) as usize).max(first))
    }

    /// Has the original draw it. What rule 4.2 refuses is not drawn.
    pub fn draw(&self, vpu: &mut Vpu, kind: Kind, texture: &Texture) {
        match (self, kind) {
            (Self::Words(words), _) => {
                if out_of_reach(words).is_none() {
                    vpu.call_draw_flat_triangle(words);
                }
            }
            (Self::Floats(shape), Kind::Textured(mode)) => {
                let Texture { width, height, texels, .. } = texture;
                vpu.call_rasterize_textured_triangle(
                    &shape.corners,
                    *width,
                    *height,
                    texels,
                    mode,
                    shape.color,
                );
            }
            (Self::Floats(shape), _) => {
                let color = (kind == Kind::Plain).then_some(shape.color);
                vpu.call_rasterize_transformed_triangle(&shape.corners, color);
            }
        }
    }
}

// Textures

/// A texture as the port has it, in the words that were sent, and as the original keeps it.
pub struct Texture {
    pub width: usize,
    pub height: usize,
    pub words: Vec<u32>,
    pub texels: Vec<u8>,
}

impl Texture {
    /// Random words, sent to a machine that takes them apart.
    pub fn new(width: usize, height: usize, seed: u64) -> Self {
        let mut random = Random::named("texture", seed, (width * 2048 + height) as u64);
        let words: Vec<u32> = (0..(width * height).div_ceil(2)).map(|_| random.word()).collect();
        let mut stream = Stream::default();
        stream.send(&Command::texture(1, width as u32, height as u32, &words));
        let mut vpu = Vpu::new();
        vpu.feed(&stream.words);
        let texels = vpu.texture(1).map(|(_, _, texels)| texels.to_vec()).unwrap_or_default();
        Self { width, height, words, texels }
    }
}

const SIDES: [(usize, usize); 22] = [
    (1, 1),
    (1, 2),
    (2, 1),
    (2, 2),
    (3, 3),
    (4, 4),
    (8, 8),
    (8, 8),
    (5, 7),
    (16, 16),
    (13, 16),
    (16, 9),
    (32, 32),
    (1, 31),
    (17, 1),
    (64, 64),
    (100, 60),
    (255, 129),
    (1, 1024),
    (1024, 1),
    (1023, 1023),
    (1024, 1024),
];

pub fn textures(seed: u64) -> Vec<Texture> {
    SIDES.iter().map(|(width, height)| Texture::new(*width, *height, seed)).collect()
}
