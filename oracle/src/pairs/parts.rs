//! What pairs of floats are made of: patterns with something left to chance.

use crate::random::Random;
use crate::whole::{encode, SIGN};

pub type Pair = (u32, u32);

pub fn size(x: u32) -> u32 {
    x & !SIGN
}

/// x with either sign.
pub fn signed(r: &mut Random, x: u32) -> u32 {
    x ^ (r.word() & SIGN)
}

/// The pattern up to `reach` places away, x itself half of the time.
pub fn near(r: &mut Random, x: u32, reach: i32) -> u32 {
    if r.chance(50) {
        x
    } else {
        x.wrapping_add_signed(r.between(-reach, reach))
    }
}

pub fn either_order(r: &mut Random, (x, y): Pair) -> Pair {
    if r.chance(50) {
        (x, y)
    } else {
        (y, x)
    }
}

/// A pattern with this exponent field.
pub fn with_field(r: &mut Random, field: i32) -> u32 {
    (r.word() & 0x807f_ffff) | (field as u32) << 23
}

/// A pattern with an exponent field from `first` to `last`.
pub fn with_fields(r: &mut Random, first: i32, last: i32) -> u32 {
    let field = r.between(first, last);
    with_field(r, field)
}

/// A whole number of `count` binary digits.
pub fn digits(r: &mut Random, count: i32) -> u128 {
    let top = 1 << (count - 1);
    (top | (r.next() & (top - 1))) as u128
}

pub fn odd_digits(r: &mut Random, count: i32) -> u128 {
    digits(r, count) | 1
}

/// m·2^e with either sign.
pub fn scaled(r: &mut Random, m: u128, e: i32) -> u32 {
    let x = encode(false, m, e, false).bits;
    signed(r, x)
}

/// Two floats of p and q digits whose product is m·n·2^e, for any e that leaves room for both.
pub fn factors(r: &mut Random, (m, p): (u128, i32), (n, q): (u128, i32), e: i32) -> Pair {
    let first = (e - 128 + q).max(-149);
    let last = (e + 149).min(128 - p);
    let at = r.between(first, last);
    (scaled(r, m, at), scaled(r, n, e - at))
}

/// The inverse of an odd m modulo 2^32.
pub fn inverse(m: u128) -> u32 {
    let m = m as u32;
    (0..5).fold(1, |i: u32, _| i.wrapping_mul(2u32.wrapping_sub(m.wrapping_mul(i))))
}
