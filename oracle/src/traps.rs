//! The first records of the fixed list, chosen by hand: what a reader may expect otherwise.

use crate::vertices::record;

const MAX: f32 = f32::MAX;

/// Seed and index of a triangle of which the six planes leave twelve vertices.
const TWELVE: (u64, u64) = (3, 4_155_954);

fn bits(floats: &[f32]) -> Vec<u32> {
    floats.iter().map(|float| float.to_bits()).collect()
}

pub fn traps(function: &str) -> Vec<Vec<u32>> {
    match function {
        "transform" => vec![zeros(20, 0..16), zeros(20, 16..20), zeros(20, 4..8)],
        "multiply" => vec![zeros(32, 0..16), zeros(32, 16..32), zeros(32, 0..4)],
        "apply" => vec![zeros(12, 0..9), zeros(12, 9..12)],
        "normalize" => normalize(),
        "shade" => shade(),
        "distance" => distance(),
        "clip_all" => clip_all(),
        _ => Vec::new(),
    }
}

/// Ones, and -0.0 in some places: a sum of -0.0 alone keeps its sign.
fn zeros(count: usize, places: std::ops::Range<usize>) -> Vec<u32> {
    let mut floats = vec![1.0; count];
    floats[places].fill(-0.0);
    bits(&floats)
}

/// Signs of zero that a division keeps; a length of 2^-23 and the next one; a sum of squares that overflows.
fn normalize() -> Vec<Vec<u32>> {
    let next = f32::from_bits(f32::EPSILON.to_bits() + 1);
    let vectors = [
        [-0.0, 2.0, -0.0],
        [-0.0, -0.0, -0.0],
        [0.0, f32::EPSILON, -0.0],
        [0.0, -next, -0.0],
        [MAX, 0.0, 0.0],
        [1.8e19, -1.8e19, 0.0],
        [1e-30, 1e-30, 1e-30],
    ];
    vectors.iter().map(|vector| bits(vector)).collect()
}

/// One light each: ambient, diffuse, specular and emission, the same for the three channels.
fn shade_record(lights: &[[f32; 4]], alpha: f32) -> Vec<u32> {
    let mut floats = vec![1.0, 1.0, 1.0, alpha, 0.0, 0.0, -1.0, 0.0, 0.0, 1.0];
    for terms in lights {
        floats.push(1.0);
        terms.iter().for_each(|term| floats.extend([*term; 3]));
        floats.extend([0.0, 0.0, 1.0]);
    }
    floats.resize(138, 0.0);
    bits(&floats)
}

/// A light's terms are summed first, and from the left: near 2^24 a 1 is lost and a 2 is not.
fn shade() -> Vec<Vec<u32>> {
    let large = 16_777_216.0;
    vec![
        shade_record(&[[0.0, 0.0, 0.0, large], [1.0, 0.0, 0.0, 1.0]], 1.0),
        shade_record(&[[0.0, 0.0, 0.0, large], [0.0, 1.0, 1.0, 0.0]], 1.0),
        shade_record(&[[large, 0.0, 1.0, 1.0]], 1.0),
        shade_record(&[[large, 1.0, 1.0, -large]], 1.0),
        shade_record(&[[-0.0, -0.0, -0.0, -0.0]], -0.0),
        shade_record(&[[MAX, MAX, 0.0, -MAX]], 1.0),
    ]
}

/// Distances that overflow, that are NaN and that are zeros of either sign, at each plane.
fn distance() -> Vec<Vec<u32>> {
    let positions = [
        [MAX, MAX, MAX, MAX],
        [-MAX, -MAX, -MAX, MAX],
        [MAX, -MAX, MAX, -MAX],
        [-0.0, -0.0, -0.0, -0.0],
        [0.0, -0.0, -0.0, 0.0],
        [1.0, -1.0, 1.0, 1.0],
        [f32::INFINITY, f32::NEG_INFINITY, f32::INFINITY, f32::INFINITY],
    ];
    let of = |plane: u32| positions.map(|position| [vec![plane], bits(&position)].concat());
    (0..6).flat_map(of).collect()
}

fn triangle(positions: [[f32; 4]; 3]) -> Vec<u32> {
    let rest = [0.5, -0.0, 2.0, 0.0, 0.0, 1.0, 1.0, 0.25, -0.0, 1.0, 0.0, 1.0];
    positions.iter().flat_map(|position| bits(&[&position[..], &rest].concat())).collect()
}

/// Finite corners with distances that overflow and parameters that are NaN, corners on planes, a zero depth of either
/// sign, nothing left, everything left.
fn clip_all() -> Vec<Vec<u32>> {
    let inside = [0.0, 0.0, 0.5, 1.0];
    let corners = [
        [inside, [MAX, 0.0, 0.5, MAX], [0.0, 0.5, 0.5, 1.0]],
        [inside, [-MAX, 0.0, 0.5, -MAX], [MAX, 0.0, 0.5, MAX]],
        [[MAX, MAX, MAX, MAX], [-MAX, MAX, 0.0, MAX], [MAX, -MAX, MAX, -MAX]],
        [[MAX, 0.0, 0.0, -MAX], [-MAX, 0.0, 0.0, MAX], inside],
        [[1.0, 0.0, 0.0, 1.0], [-1.0, 0.0, 1.0, 1.0], [0.0, 1.0, -0.0, 1.0]],
        [[0.5, 0.5, -0.0, 1.0], [-0.5, 0.5, -0.0, 1.0], [0.0, -0.5, -0.0, 1.0]],
        [[0.5, 0.5, -0.0, 1.0], [-0.5, 0.5, -0.0, 1.0], [0.0, -0.5, -1.0, 1.0]],
        [[3.0, 3.0, 3.0, 1.0], [4.0, 3.0, 3.0, 1.0], [3.0, 4.0, 3.0, 1.0]],
        [[-3.0, -3.0, 0.5, 1.0], [3.0, -3.0, 0.5, 1.0], [0.0, 3.0, 0.5, 1.0]],
        [inside, [f32::NAN, 0.0, 0.5, 1.0], [0.0, 0.5, 0.5, 1.0]],
        [inside, [f32::INFINITY, 0.0, 0.5, f32::INFINITY], [0.0, 0.5, 0.5, 1.0]],
        [[0.0; 4], [0.0; 4], [-0.0; 4]],
    ];
    let mut triangles = corners.map(triangle).to_vec();
    triangles.push(record("clip_all", TWELVE.0, TWELVE.1));
    triangles
}
