//! FNV-1a digests of what a machine shows. Every NaN counts as one value.

pub use crate::bits::{bits, fnv, ONE_NAN};
use crate::original::Vpu;

pub fn little_endian(words: &[u32]) -> Vec<u8> {
    words.iter().flat_map(|word| word.to_le_bytes()).collect()
}

pub fn depth_words(vpu: &Vpu) -> Vec<u32> {
    vpu.depth().iter().map(|depth| *depth as u32).collect()
}

pub fn depth_f32_words(vpu: &Vpu) -> Vec<u32> {
    vpu.depth_f32().iter().map(|depth| bits(*depth)).collect()
}

fn fnv_of_words(words: &[u32]) -> u64 {
    fnv(words.iter().flat_map(|word| word.to_le_bytes()))
}

/// One digest and the memory that it was taken of: unchanged memory is not digested again.
#[derive(Default)]
struct Remembered<T> {
    memory: Vec<T>,
    digest: u64,
}

impl<T: PartialEq + Clone> Remembered<T> {
    fn digest(&mut self, memory: &[T], digest: fn(&[T]) -> u64) -> u64 {
        if memory != self.memory {
            self.digest = digest(memory);
            self.memory = memory.to_vec();
        }
        self.digest
    }
}

/// The digests of plane, integer depths and float depths, taken after each call in turn.
#[derive(Default)]
pub struct Digests {
    plane: Remembered<u8>,
    depth: Remembered<u32>,
    depth_f32: Remembered<u32>,
}

impl Digests {
    pub fn take(&mut self, vpu: &Vpu) -> [u64; 3] {
        [
            self.plane.digest(vpu.plane(), |bytes| fnv(bytes.iter().copied())),
            self.depth.digest(&depth_words(vpu), fnv_of_words),
            self.depth_f32.digest(&depth_f32_words(vpu), fnv_of_words),
        ]
    }

    /// `STATUS PLANE DEPTH DEPTH_F32`, as `oracle run` prints it after each call.
    pub fn line(&mut self, vpu: &Vpu) -> String {
        let [plane, depth, depth_f32] = self.take(vpu);
        format!("{:08x} {plane:016x} {depth:016x} {depth_f32:016x}", vpu.status())
    }
}
