//! The bits of a float, and the FNV-1a digest of bytes: what needs no original.

pub const ONE_NAN: u32 = 0x7fc0_0000;

const FNV_OFFSET: u64 = 14_695_981_039_346_656_037;
const FNV_PRIME: u64 = 1_099_511_628_211;

pub fn fnv(bytes: impl Iterator<Item = u8>) -> u64 {
    bytes.fold(FNV_OFFSET, |digest, byte| (digest ^ byte as u64).wrapping_mul(FNV_PRIME))
}

/// The bits of a float, those of `ONE_NAN` for every NaN. The test is on the bits: after `is_nan` the compiler may take
/// the choice between two NaNs for no choice.
pub fn bits(float: f32) -> u32 {
    let bits = float.to_bits();
    if bits & 0x7fff_ffff > 0x7f80_0000 {
        ONE_NAN
    } else {
        bits
    }
}
