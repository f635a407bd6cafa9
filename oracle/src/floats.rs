//! Floats and matrices worth trying. Only + - * / are used, so they are the same on every machine.

use crate::random::Random;

pub type Matrix = [f32; 16];

/// Zeros, subnormals, neighbours of 1 and of 2^-23, the ends of the finite range, and what is not finite.
const SPECIAL: [u32; 20] = [
    0x0000_0000,
    0x8000_0000,
    0x0000_0001,
    0x8000_0001,
    0x007f_ffff,
    0x0080_0000,
    0x3400_0000,
    0x3400_0001,
    0xb3ff_ffff,
    0x3f7f_ffff,
    0x3f80_0000,
    0x3f80_0001,
    0xbf80_0001,
    0x5f80_0000,
    0x7f7f_ffff,
    0xff7f_ffff,
    0x7f80_0000,
    0xff80_0000,
    0x7fc0_0000,
    0xffa5_a5a5,
];

pub fn special(random: &mut Random) -> f32 {
    f32::from_bits(random.pick(&SPECIAL))
}

pub fn not_finite(random: &mut Random) -> f32 {
    f32::from_bits(random.pick(&SPECIAL[16..]))
}

/// Any finite bits.
pub fn finite(random: &mut Random) -> f32 {
    let float = f32::from_bits(random.word());
    if float.is_finite() {
        float
    } else {
        1.5
    }
}

/// Either sign, and each power of two up to the largest as likely as any other.
pub fn any_magnitude(random: &mut Random) -> f32 {
    let sign = random.pick(&[1.0, -1.0]);
    sign * power_of_two(random.between(-4, 127)) * (1.0 + random.unit())
}

pub fn subnormal(random: &mut Random) -> f32 {
    f32::from_bits(random.word() & 0x807f_ffff)
}

pub fn power_of_two(exponent: i32) -> f32 {
    f32::from_bits(((exponent + 127) as u32) << 23)
}

pub fn diagonal(x: f32, y: f32, z: f32, w: f32) -> Matrix {
    [x, 0.0, 0.0, 0.0, 0.0, y, 0.0, 0.0, 0.0, 0.0, z, 0.0, 0.0, 0.0, 0.0, w]
}

pub fn identity() -> Matrix {
    diagonal(1.0, 1.0, 1.0, 1.0)
}

pub fn scale(factor: f32) -> Matrix {
    diagonal(factor, factor, factor, 1.0)
}

pub fn translation(by: [f32; 3]) -> Matrix {
    let mut matrix = identity();
    for row in 0..3 {
        matrix[row * 4 + 3] = by[row];
    }
    matrix
}

/// A rotation by a random quaternion.
pub fn rotation(random: &mut Random) -> Matrix {
    let [x, y, z] = random.floats(-1.0, 1.0);
    let w = random.float(0.25, 1.0);
    let s = 2.0 / (x * x + y * y + z * z + w * w);
    let rows = [
        [1.0 - s * (y * y + z * z), s * (x * y - w * z), s * (x * z + w * y)],
        [s * (x * y + w * z), 1.0 - s * (x * x + z * z), s * (y * z - w * x)],
        [s * (x * z - w * y), s * (y * z + w * x), 1.0 - s * (x * x + y * y)],
    ];
    let mut matrix = identity();
    for (row, values) in rows.iter().enumerate() {
        matrix[row * 4..row * 4 + 3].copy_from_slice(values);
    }
    matrix
}

/// Depths -1 to 1 become 0 to 1; nothing grows smaller with distance.
pub fn orthographic() -> Matrix {
    let mut matrix = diagonal(1.0, 1.0, 0.5, 1.0);
    matrix[11] = 0.5;
    matrix
}

/// The identity, but every depth becomes -0.0 for corners whose coordinates are all positive.
pub fn negative_zero_depth() -> Matrix {
    let mut matrix = identity();
    matrix[8..12].fill(-0.0);
    matrix
}

/// Looks along -z, from `near` to `far`.
pub fn perspective(zoom: f32, near: f32, far: f32) -> Matrix {
    let mut matrix = diagonal(zoom * 0.75, zoom, far / (near - far), 0.0);
    matrix[11] = near * far / (near - far);
    matrix[14] = -1.0;
    matrix
}

/// The identity with a bottom row that gives each corner a w of its own.
pub fn tilted(random: &mut Random) -> Matrix {
    let mut matrix = identity();
    let slopes: [f32; 3] = random.floats(-0.5, 0.5);
    matrix[12..15].copy_from_slice(&slopes);
    matrix
}

/// A scaling whose determinant is just under, at or just over 2^-23, and one that undoes it.
pub fn near_singular(random: &mut Random) -> (Matrix, Matrix) {
    let small = f32::from_bits(random.pick(&[0x33ff_ffff, 0x3400_0000, 0x3400_0000, 0x3400_0001]));
    let axis = random.below(3) as usize;
    let (mut shrunk, mut grown) = (identity(), identity());
    shrunk[axis * 5] = small;
    grown[axis * 5] = power_of_two(23);
    (shrunk, grown)
}

pub fn singular(random: &mut Random) -> Matrix {
    let mut matrix = rotation(random);
    let row = random.below(3) as usize;
    matrix[row * 4..row * 4 + 3].fill(0.0);
    matrix
}

/// Large enough that products or determinants may overflow.
pub fn huge(random: &mut Random) -> Matrix {
    let mut matrix = rotation(random);
    let factor = power_of_two(random.between(30, 126));
    matrix[..12].iter_mut().for_each(|entry| *entry *= factor);
    matrix
}

pub fn filled(random: &mut Random, entry: fn(&mut Random) -> f32) -> Matrix {
    std::array::from_fn(|_| entry(random))
}
