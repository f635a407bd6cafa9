//! Inputs for the functions that a corner passes through, in the layouts of `single`: one record for each function,
//! seed and index. The index decides the family of the input, the random numbers the rest.

use crate::floats::*;
use crate::original::call_normalize;
use crate::random::Random;

/// The functions, and the number of words of a record if it is always the same.
pub const FUNCTIONS: [(&str, Option<usize>); 9] = [
    ("transform", Some(20)),
    ("multiply", Some(32)),
    ("inverse", Some(16)),
    ("apply", Some(12)),
    ("normalize", Some(3)),
    ("shade", Some(138)),
    ("distance", Some(5)),
    ("clip", None),
    ("clip_all", Some(48)),
];

/// The most vertices that the port takes at one plane.
const MOST_CORNERS: u32 = 19;

const EPSILON: f32 = f32::EPSILON;

type Entry = fn(&mut Random) -> f32;

const ENTRIES: [Entry; 9] =
    [ordinary, ordinary, ordinary, simple, any_magnitude, subnormal, special, any_pattern, about_epsilon];

pub fn record(function: &str, seed: u64, index: u64) -> Vec<u32> {
    let random = &mut Random::named(function, seed, index);
    let family = (index % 12) as u32;
    let mut floats = match function {
        "transform" => transform(random, family),
        "multiply" => [matrix(random, family), any_matrix(random)].concat(),
        "inverse" => invertible_or_not(random, family).to_vec(),
        "apply" => apply(random, family),
        "normalize" => vector(random, family).to_vec(),
        "shade" => shade(random, family),
        "distance" => position(random, family).to_vec(),
        "clip" => polygon(random, family),
        "clip_all" => triangle(random, family),
        _ => Vec::new(),
    };
    if family % 4 == 3 && !floats.is_empty() {
        sprinkle(random, &mut floats);
    }
    let mut words: Vec<u32> = floats.iter().map(|float| float.to_bits()).collect();
    match function {
        "shade" => (10..words.len()).step_by(16).for_each(|at| words[at] = switch(words[at])),
        "distance" | "clip" => words.insert(0, random.below(6)),
        _ => (),
    }
    words
}

/// 0.0 or 1.0.
fn switch(word: u32) -> u32 {
    if word == 0 {
        0
    } else {
        0x3f80_0000
    }
}

// Single floats

fn ordinary(random: &mut Random) -> f32 {
    random.float(-4.0, 4.0)
}

fn any_pattern(random: &mut Random) -> f32 {
    f32::from_bits(random.word())
}

/// Values whose sums and differences are often zeros of either sign.
fn simple(random: &mut Random) -> f32 {
    random.pick(&[0.0, -0.0, 1.0, -1.0, 0.5, -2.0])
}

/// 2^-23 and its neighbours, of either sign.
fn about_epsilon(random: &mut Random) -> f32 {
    let near = f32::from_bits((EPSILON.to_bits() as i32 + random.between(-4, 4)) as u32);
    random.pick(&[1.0, -1.0]) * near
}

/// Large enough that a sum of two may overflow.
fn largest(random: &mut Random) -> f32 {
    random.pick(&[1.0, -1.0]) * f32::MAX * random.float(0.25, 1.0)
}

/// Puts one to three special values into places of their own.
fn sprinkle(random: &mut Random, floats: &mut [f32]) {
    for _ in 0..random.between(1, 3) {
        let at = random.below(floats.len() as u32) as usize;
        let entry = random.pick(&[special as Entry, any_pattern, largest, simple]);
        floats[at] = entry(random);
    }
}

fn any_entry(random: &mut Random) -> f32 {
    let entry = random.pick(&ENTRIES);
    entry(random)
}

fn filled_with<const N: usize>(random: &mut Random, entry: Entry) -> [f32; N] {
    std::array::from_fn(|_| entry(random))
}

fn some<const N: usize>(random: &mut Random, family: u32) -> [f32; N] {
    filled_with(random, ENTRIES[family as usize % ENTRIES.len()])
}

// Matrices

fn any_matrix(random: &mut Random) -> Matrix {
    let family = random.below(12);
    matrix(random, family)
}

fn matrix(random: &mut Random, family: u32) -> Matrix {
    match family {
        0 => rotation(random),
        1 => perspective(random.float(0.5, 2.0), random.float(0.1, 1.0), random.float(2.0, 50.0)),
        2 => translation(random.floats(-5.0, 5.0)),
        4 => tilted(random),
        5 => huge(random),
        6 => random.pick(&[negative_zero_depth(), orthographic(), identity(), scale(-0.0), scale(0.25)]),
        8 => near_singular(random).0,
        _ => {
            let entry = random.pick(&ENTRIES);
            filled(random, entry)
        }
    }
}

fn transform(random: &mut Random, family: u32) -> Vec<f32> {
    let position: [f32; 4] = match family {
        5 => filled_with(random, any_magnitude),
        6 => filled_with(random, simple),
        _ => {
            let entry = random.pick(&ENTRIES);
            filled_with(random, entry)
        }
    };
    [&matrix(random, family)[..], &position].concat()
}

fn invertible_or_not(random: &mut Random, family: u32) -> Matrix {
    match family {
        1 => about_singular(random),
        2 => balanced(random),
        4 => singular(random),
        6 => diagonal(power_of_two(-8), power_of_two(-8), about_epsilon(random) * 65536.0, 1.0),
        9 => determinant_of_magnitude(random),
        10 => rows_alike(random),
        _ => matrix(random, family),
    }
}

/// A turned matrix with a determinant about 2^-23 in size.
fn about_singular(random: &mut Random) -> Matrix {
    let mut matrix = rotation(random);
    let row = random.below(3) as usize * 4;
    let factor = EPSILON * random.float(0.9, 1.1);
    matrix[row..row + 3].iter_mut().for_each(|entry| *entry *= factor);
    matrix
}

/// Rows of very different size whose determinant is about 1, so that it is finite and a cofactor may not be.
fn balanced(random: &mut Random) -> Matrix {
    let mut matrix = rotation(random);
    let p = random.between(20, 100);
    let q = random.between(20, 45);
    for (row, exponent) in [p, q, -p.min(126 - q) - q].into_iter().enumerate() {
        matrix[row * 4..row * 4 + 3].iter_mut().for_each(|entry| *entry *= power_of_two(exponent));
    }
    matrix
}

/// Two rows that are equal, or differ in one last place.
fn rows_alike(random: &mut Random) -> Matrix {
    let mut matrix = filled(random, ordinary);
    matrix.copy_within(0..3, 4);
    if random.chance(50) {
        let at = 4 + random.below(3) as usize;
        matrix[at] = f32::from_bits(matrix[at].to_bits() ^ 1);
    }
    matrix
}

fn determinant_of_magnitude(random: &mut Random) -> Matrix {
    let mut matrix = rotation(random);
    let factor = power_of_two(random.between(-45, 45));
    matrix.iter_mut().for_each(|entry| *entry *= factor);
    matrix
}

fn apply(random: &mut Random, family: u32) -> Vec<f32> {
    let source = matrix(random, family);
    let normal = vector(random, family);
    [&source[0..3], &source[4..7], &source[8..11], &normal].concat()
}

// Vectors

fn vector(random: &mut Random, family: u32) -> [f32; 3] {
    match family {
        1 => {
            let factor = EPSILON * (1.0 + EPSILON * random.float(-4.0, 4.0));
            scaled(random, factor)
        }
        2 => on_an_axis(random, about_epsilon),
        4 => on_an_axis(random, simple),
        5 => {
            let factor = power_of_two(random.between(55, 127));
            scaled(random, factor)
        }
        6 => {
            let factor = power_of_two(random.between(-126, -15));
            scaled(random, factor)
        }
        8 => [special(random), special(random), special(random)],
        9 => [any_pattern(random), any_pattern(random), any_pattern(random)],
        _ => some(random, family),
    }
}

/// A direction, made about as long as `length`.
fn scaled(random: &mut Random, length: f32) -> [f32; 3] {
    call_normalize(random.floats(-1.0, 1.0)).map(|value| value * length)
}

fn on_an_axis(random: &mut Random, entry: Entry) -> [f32; 3] {
    let mut vector = [random.pick(&[0.0, -0.0]); 3];
    vector[random.below(3) as usize] = entry(random);
    vector
}

// Lights

fn shade(random: &mut Random, family: u32) -> Vec<f32> {
    let albedo: [f32; 4] = if family == 8 { some(random, 4) } else { random.floats(0.0, 1.0) };
    let position = match family {
        4 => [0.0, -0.0, 0.0],
        6 => filled_with(random, any_magnitude),
        7 | 10 => vector(random, extreme_family(family)),
        _ => random.floats(-3.0, 3.0),
    };
    let normal = match family {
        5 | 10 => vector(random, extreme_family(family)),
        _ => call_normalize(random.floats(-1.0, 1.0)),
    };
    let percent = match family {
        11 => 0,
        3 | 4 => 20,
        2 | 8 | 10 => 60,
        _ => 100,
    };
    let lights: Vec<f32> = (0..8).flat_map(|_| light(random, family, percent, position, normal)).collect();
    [&albedo[..], &position, &normal, &lights].concat()
}

/// A family of `vector` for a vector inside another input: large, small, or any pattern.
fn extreme_family(family: u32) -> u32 {
    [5, 6, 9][family as usize % 3]
}

fn light(random: &mut Random, family: u32, percent: u32, corner: [f32; 3], normal: [f32; 3]) -> Vec<f32> {
    let enabled = if random.chance(percent) { 1.0 } else { 0.0 };
    let terms: [f32; 12] = match family {
        1 => filled_with(random, ordinary),
        8 => filled_with(random, any_magnitude),
        9 => filled_with(random, special),
        _ => random.floats(0.0, 1.0),
    };
    [&[enabled], &terms[..], &light_place(random, corner, normal)].concat()
}

/// Anywhere, at the corner, before and behind the surface, opposite the eye, near the corner, far away.
fn light_place(random: &mut Random, corner: [f32; 3], normal: [f32; 3]) -> [f32; 3] {
    let along = |by: f32| std::array::from_fn(|axis| corner[axis] + by * normal[axis]);
    match random.below(9) {
        0 => corner,
        1 => along(random.float(0.5, 4.0)),
        2 => along(random.float(-4.0, -0.5)),
        3 => corner.map(|value| value * 2.0),
        4 => along(EPSILON),
        5 => filled_with(random, any_magnitude),
        6 => filled_with(random, simple),
        _ => random.floats(-6.0, 6.0),
    }
}

// Corners

/// A position in clip space.
fn position(random: &mut Random, family: u32) -> [f32; 4] {
    let mut position: [f32; 4] = match family {
        0 | 3 => random.floats(-2.0, 2.0),
        1 => filled_with(random, largest),
        2 => filled_with(random, any_magnitude),
        4 => filled_with(random, simple),
        5 => filled_with(random, any_entry),
        6 => filled_with(random, any_pattern),
        8 => filled_with(random, special),
        _ => {
            let reach = random.pick(&[1.5, 5.0, 40.0]);
            random.floats(-reach, reach)
        }
    };
    if family >= 7 {
        position[3] = random.float(0.25, 2.0);
    }
    if random.chance(if family == 10 { 60 } else { 10 }) {
        onto_a_plane(random, &mut position);
    }
    position
}

/// Makes the distance to one plane a zero.
fn onto_a_plane(random: &mut Random, position: &mut [f32; 4]) {
    let w = position[3];
    match random.below(6) {
        0 => position[0] = -w,
        1 => position[0] = w,
        2 => position[1] = -w,
        3 => position[1] = w,
        4 => position[2] = random.pick(&[0.0, -0.0]),
        _ => position[2] = w,
    }
}

fn vertex(random: &mut Random, family: u32) -> Vec<f32> {
    let position = position(random, family);
    let rest: [f32; 12] = match family {
        1 | 2 => filled_with(random, any_magnitude),
        4 => filled_with(random, simple),
        6 => filled_with(random, any_pattern),
        _ => random.floats(-1.0, 1.0),
    };
    [&position[..], &rest].concat()
}

fn polygon(random: &mut Random, family: u32) -> Vec<f32> {
    let corners = if family == 11 { 3 } else { random.below(MOST_CORNERS + 1) };
    (0..corners).flat_map(|_| vertex(random, family)).collect()
}

fn triangle(random: &mut Random, family: u32) -> Vec<f32> {
    match family {
        1 => scaled_corners(random, |random| f32::MAX * random.float(0.25, 1.0)),
        4 | 5 => about_planes(random),
        6 if random.chance(50) => spoiled(random),
        7 | 9 => around(random),
        8 => scaled_corners(random, |random| {
            random.pick(&[1.0, f32::MAX, f32::INFINITY, 0.0, power_of_two(100)])
        }),
        _ => (0..3).flat_map(|_| vertex(random, family)).collect(),
    }
}

/// Corners about the view. Each has its own w, and its coordinates are multiples of that: differences overflow.
fn scaled_corners(random: &mut Random, scale: Entry) -> Vec<f32> {
    let mut floats = Vec::new();
    for _ in 0..3 {
        let mut corner = vertex(random, 0);
        let w = scale(random);
        for value in &mut corner[..3] {
            *value = w * random.float(-1.5, 1.5);
        }
        corner[3] = w;
        floats.extend(corner);
    }
    floats
}

/// Corners a few last places off the planes, each with a w of very different size: rounding decides what is inside, and
/// a polygon crosses a plane more than twice.
fn about_planes(random: &mut Random) -> Vec<f32> {
    let mut floats = Vec::new();
    for _ in 0..3 {
        let mut corner = vertex(random, 0);
        let sign = if random.chance(25) { -1.0 } else { 1.0 };
        let w = sign * power_of_two(random.between(-60, 60)) * (1.0 + random.unit());
        for value in &mut corner[..3] {
            let side = random.pick(&[1.0, -1.0, 1.0, -1.0, 0.5, 2.0]);
            *value = w * side * (1.0 + EPSILON * random.between(-3, 3) as f32);
        }
        if random.chance(60) {
            corner[2] = corner[2].abs() * random.pick(&[1.0, 0.5, 0.0]);
        }
        corner[3] = w;
        floats.extend(corner);
    }
    floats
}

/// As `around`, with one or two coordinates that are infinite, NaN or about to overflow.
fn spoiled(random: &mut Random) -> Vec<f32> {
    let mut floats = around(random);
    for _ in 0..random.between(1, 2) {
        let at = 16 * random.below(3) + random.below(4);
        floats[at as usize] =
            random.pick(&[f32::INFINITY, f32::NEG_INFINITY, f32::NAN, f32::MAX, -f32::MAX, 1e30]);
    }
    floats
}

/// A triangle whose middle lies in the view and whose corners lie outside, so that many planes cut it.
fn around(random: &mut Random) -> Vec<f32> {
    let middle = [random.float(-0.3, 0.3), random.float(-0.3, 0.3), random.float(0.3, 0.7)];
    let a = call_normalize(random.floats(-1.0, 1.0));
    let b = call_normalize(random.floats(-1.0, 1.0));
    let reach = random.float(1.0, 3.0);
    let mut floats = Vec::new();
    for (u, v) in [(1.0, 0.0), (-0.5, 0.9), (-0.5, -0.9)] {
        let mut corner = vertex(random, 7);
        let w = corner[3];
        for axis in 0..3 {
            corner[axis] = w * (middle[axis] + reach * (u * a[axis] + v * b[axis]));
        }
        floats.extend(corner);
    }
    floats
}
