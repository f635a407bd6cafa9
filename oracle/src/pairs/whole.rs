//! Binary32 over whole numbers: `add`, `sub`, `mul` and `div` of `oracle/floats.py`, compiled. A value is its pattern,
//! rounding is to nearest, ties to even, and no result passes through a float.

use crate::bits::ONE_NAN as NAN;

pub const INF: u32 = 0x7f80_0000;
pub const SIGN: u32 = 0x8000_0000;

/// A result, and whether it was chosen from two that are equally near.
#[derive(Clone, Copy)]
pub struct Rounded {
    pub bits: u32,
    pub tie: bool,
}

fn exactly(bits: u32) -> Rounded {
    Rounded { bits, tie: false }
}

fn is_nan(x: u32) -> bool {
    x & !SIGN > INF
}

fn is_inf(x: u32) -> bool {
    x & !SIGN == INF
}

fn is_zero(x: u32) -> bool {
    x & !SIGN == 0
}

fn negative(x: u32) -> bool {
    x & SIGN != 0
}

fn sign_bit(sign: bool) -> u32 {
    (sign as u32) << 31
}

/// A finite x as (m, e): its size is m·2^e.
fn decode(x: u32) -> (u128, i32) {
    let (field, m) = ((x >> 23 & 0xff) as i32, (x & 0x7f_ffff) as u128);
    if field > 0 {
        (m + 0x80_0000, field - 150)
    } else {
        (m, -149)
    }
}

/// What is nearest to m·2^e, for m below 2^125; with `rest`, to a number between that and (m + 1)·2^e.
pub fn encode(sign: bool, mut m: u128, mut e: i32, rest: bool) -> Rounded {
    if rest {
        assert!(m >= 1 << 25, "a tie has to be told from what is beside it");
        (m, e) = (m * 2 + 1, e - 1);
    }
    let length = 128 - m.leading_zeros() as i32;
    let unit = (length + e - 24).max(-149);
    let mut digits = 0;
    let mut tie = false;
    if unit <= e {
        digits = (m << (e - unit)) as u64;
    } else if unit - e < 128 {
        // From 128 places on, m is less than half a unit.
        let half = 1 << (unit - e - 1);
        digits = (m >> (unit - e)) as u64;
        let left = m - ((digits as u128) << (unit - e));
        tie = left == half;
        digits += (left > half || (tie && digits % 2 == 1)) as u64;
    }
    // The leading digit adds 1 to the exponent field; a sum that carries adds 1 more.
    let x = if digits < 0x80_0000 { digits } else { (((unit + 149) as u64) << 23) + digits };
    Rounded { bits: x.min(INF as u64) as u32 | sign_bit(sign), tie }
}

pub fn add(x: u32, y: u32) -> Rounded {
    if is_nan(x) || is_nan(y) || (is_inf(x) && is_inf(y) && x != y) {
        return exactly(NAN);
    }
    if is_inf(x) || is_inf(y) {
        return exactly(if is_inf(x) { x } else { y });
    }
    let (x, y) = if decode(x).1 >= decode(y).1 { (x, y) } else { (y, x) };
    let ((m, e), (n, f)) = (decode(x), decode(y));
    let sign = negative(x);
    let same = sign == negative(y);
    if e - f > 100 {
        // Then n·2^f is below 2^(e - 76): it matters only whether y is 0, and on which side it is.
        return match (n, same) {
            (0, _) => encode(sign, m << 50, e - 50, false),
            (_, true) => encode(sign, m << 50, e - 50, true),
            (_, false) => encode(sign, (m << 50) - 1, e - 50, true),
        };
    }
    let m = m << (e - f);
    if same {
        encode(sign, m + n, f, false)
    } else if m == n {
        exactly(0)
    } else {
        encode(if m > n { sign } else { !sign }, m.abs_diff(n), f, false)
    }
}

pub fn sub(x: u32, y: u32) -> Rounded {
    add(x, if is_nan(y) { NAN } else { y ^ SIGN })
}

pub fn mul(x: u32, y: u32) -> Rounded {
    let sign = negative(x) != negative(y);
    if is_nan(x) || is_nan(y) || (is_inf(x) && is_zero(y)) || (is_zero(x) && is_inf(y)) {
        return exactly(NAN);
    }
    if is_inf(x) || is_inf(y) {
        return exactly(INF | sign_bit(sign));
    }
    let ((m, e), (n, f)) = (decode(x), decode(y));
    encode(sign, m * n, e + f, false)
}

pub fn div(x: u32, y: u32) -> Rounded {
    let sign = negative(x) != negative(y);
    if is_nan(x) || is_nan(y) || (is_inf(x) && is_inf(y)) || (is_zero(x) && is_zero(y)) {
        return exactly(NAN);
    }
    if is_inf(x) || is_zero(y) {
        return exactly(INF | sign_bit(sign));
    }
    if is_zero(x) || is_inf(y) {
        return exactly(sign_bit(sign));
    }
    let ((m, e), (n, f)) = (decode(x), decode(y));
    let quotient = (m << 50) / n;
    encode(sign, quotient, e - f - 50, quotient * n != m << 50)
}
