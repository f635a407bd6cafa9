//! Pairs made on purpose: a function for each family. Neighbours of a hard pair are as good as the pair, so most families
//! move a pattern by a few places in some of their pairs.

use crate::bits::ONE_NAN;
use crate::parts::*;
use crate::random::Random;
use crate::whole::{self, INF};

pub const FAMILIES: [(&str, fn(&mut Random) -> Pair); 16] = [
    ("ties of sums", sum_tie),
    ("ties of products", product_tie),
    ("nearly ties of products", product_near_tie),
    ("nearly ties of quotients", quotient_near_tie),
    ("subnormal ties of products", small_product_tie),
    ("subnormal ties of quotients", small_quotient_tie),
    ("sums at the greatest float", greatest_sum),
    ("products, quotients at the greatest float", greatest_product),
    ("sums at the smallest normal", least_sum),
    ("products, quotients at the smallest normal", least_product),
    ("zeros, infinities, NaN and other limits", special),
    ("opposite and equal numbers", opposite),
    ("powers of two", power),
    ("sizes near each other", near_sizes),
    ("few digits", few_digits),
    ("subnormals", subnormal),
];

const ONE: u32 = 0x3f80_0000;
const GREATEST: u32 = INF - 1;
const LEAST_NORMAL: u32 = 0x0080_0000;
/// Half of the last place of the greatest float.
const GREATEST_HALF: u32 = 0x7300_0000;

const SPECIALS: [u32; 20] = [
    0,
    1,
    2,
    LEAST_NORMAL - 1,
    LEAST_NORMAL,
    LEAST_NORMAL + 1,
    0x3380_0000, // 2^-24
    0x3400_0000, // 2^-23
    0x3f00_0000,
    ONE - 1,
    ONE,
    ONE + 1,
    0x4000_0000,
    0x4b80_0000, // 2^24
    GREATEST_HALF,
    GREATEST,
    INF,
    INF + 1,
    ONE_NAN,
    0x7fff_ffff,
];

/// A float of 24 digits, and an odd number of halves of its last place.
fn sum_tie(r: &mut Random) -> Pair {
    let unit = r.between(-148, 104);
    let count = r.between(1, 24);
    let (m, n) = (digits(r, 24), odd_digits(r, count));
    let half = scaled(r, n, unit - 1);
    let pair = (scaled(r, m, unit), near(r, half, 2));
    either_order(r, pair)
}

/// Odd numbers whose product has 25 digits, or 24 or 26.
fn product_tie(r: &mut Random) -> Pair {
    let p = r.between(1, 24);
    let q = r.between(25 - p, 26 - p).min(24);
    let (m, n) = (odd_digits(r, p), odd_digits(r, q));
    let e = r.between(-150, 103);
    let (x, y) = factors(r, (m, p), (n, q), e);
    (x, near(r, y, 1))
}

/// 24 digits each, and the product's last 23 or 24 digits are a half of their unit and a little.
fn product_near_tie(r: &mut Random) -> Pair {
    let m = odd_digits(r, 24);
    let places = r.between(23, 24);
    let end = (1u32 << (places - 1)).wrapping_add_signed(r.between(-8, 8));
    let mut n = end.wrapping_mul(inverse(m)) % (1 << places);
    if n < 1 << 23 {
        // This gives n 24 digits. Both ways leave the end as near to the half.
        n = if places == 23 { n + (1 << 23) } else { (1 << 24) - n };
    }
    let e = r.between(-175, 79);
    factors(r, (m, 24), (n as u128, 24), e)
}

/// m / n very near to a tie: k·n - rest = m·2^25 for an odd k of 25 digits and a small rest.
fn quotient_near_tie(r: &mut Random) -> Pair {
    let n = odd_digits(r, 24);
    let mut rest = r.between(-8, 7) * 2 + 1;
    let mut k = (rest as u32).wrapping_mul(inverse(n)) % (1 << 25);
    if k < 1 << 24 {
        (rest, k) = (-rest, (1 << 25) - k);
    }
    let m = (k as i128 * n as i128 - rest as i128) >> 25;
    let (e, f) = (r.between(-149, 104), r.between(-149, 104));
    (scaled(r, m as u128, e), scaled(r, n, f))
}

/// Odd multiples of 2^-150 as products, 1 to 24 digits long.
fn small_product_tie(r: &mut Random) -> Pair {
    let p = r.between(1, 23);
    let q = r.between(1, 24 - p);
    let (m, n) = (odd_digits(r, p), odd_digits(r, q));
    let (x, y) = factors(r, (m, p), (n, q), -150);
    (x, near(r, y, 1))
}

/// Odd multiples of 2^-150 as quotients.
fn small_quotient_tie(r: &mut Random) -> Pair {
    let p = r.between(1, 23);
    let q = r.between(1, 24 - p);
    let (m, n) = (odd_digits(r, p), odd_digits(r, q));
    let e = r.between(1, 128 - q);
    let x = scaled(r, m * n, e - 150);
    (near(r, x, 1), scaled(r, n, e))
}

fn greatest_sum(r: &mut Random) -> Pair {
    let x = if r.chance(50) { GREATEST - r.below(4) } else { size(with_fields(r, 252, 254)) };
    let y = if r.chance(50) { GREATEST_HALF } else { whole::sub(GREATEST, x).bits };
    let y = near(r, y, 3);
    let pair = (signed(r, x), signed(r, y));
    either_order(r, pair)
}

fn greatest_product(r: &mut Random) -> Pair {
    at_limit(r, GREATEST, (127, 254), (1, 127))
}

fn least_sum(r: &mut Random) -> Pair {
    let x = r.below(0x0200_0000);
    let y = whole::sub(LEAST_NORMAL, x).bits;
    let y = near(r, y, 2);
    let pair = (signed(r, x), signed(r, y));
    either_order(r, pair)
}

fn least_product(r: &mut Random) -> Pair {
    at_limit(r, LEAST_NORMAL, (1, 127), (127, 254))
}

/// A product or a quotient at a limit, or a few places from it. A factor and the divisor have exponent fields in the
/// ranges given.
fn at_limit(r: &mut Random, limit: u32, factor: (i32, i32), divisor: (i32, i32)) -> Pair {
    if r.chance(50) {
        let x = with_fields(r, factor.0, factor.1);
        let y = whole::div(limit, x).bits;
        let pair = (x, near(r, y, 2));
        either_order(r, pair)
    } else {
        let y = with_fields(r, divisor.0, divisor.1);
        let x = whole::mul(limit, y).bits;
        (near(r, x, 2), y)
    }
}

fn special(r: &mut Random) -> Pair {
    let x = r.pick(&SPECIALS);
    let y = if r.chance(50) { r.pick(&SPECIALS) } else { r.word() };
    let pair = (signed(r, x), signed(r, y));
    either_order(r, pair)
}

/// The same size, or half or twice of it, up to a few places.
fn opposite(r: &mut Random) -> Pair {
    let x = r.word();
    let other = if r.chance(75) { x } else { x.wrapping_add_signed(r.between(-1, 1) << 23) };
    let y = near(r, other, 4);
    (x, signed(r, y))
}

/// Any number and a power of two; half of the time one that brings the quotient or the product below the smallest
/// normal, as far as there is one.
fn power(r: &mut Random) -> Pair {
    if r.chance(50) {
        let e = r.between(-149, 127);
        return (r.word(), scaled(r, 1, e));
    }
    let x = with_fields(r, 1, 254);
    let field = (x >> 23 & 0xff) as i32;
    let to = r.between(-152, -126);
    let e = if r.chance(50) { field - 127 - to } else { to - (field - 127) };
    (x, scaled(r, 1, e.clamp(-149, 127)))
}

/// Any digits, and exponents up to 27 apart.
fn near_sizes(r: &mut Random) -> Pair {
    let x = with_fields(r, 0, 254);
    let field = (x >> 23 & 0xff) as i32;
    let y = with_fields(r, (field - 27).max(0), (field + 27).min(254));
    (x, y)
}

/// Up to 13 digits each, and exponents up to 27 apart.
fn few_digits(r: &mut Random) -> Pair {
    let (p, q) = (r.between(1, 13), r.between(1, 13));
    let (m, n) = (digits(r, p), digits(r, q));
    let e = r.between(-149, 114);
    let f = r.between((e - 27).max(-149), (e + 27).min(114));
    (scaled(r, m, e), scaled(r, n, f))
}

/// A subnormal, and another or any number.
fn subnormal(r: &mut Random) -> Pair {
    let x = with_field(r, 0);
    let y = if r.chance(50) { with_field(r, 0) } else { r.word() };
    either_order(r, (x, y))
}
