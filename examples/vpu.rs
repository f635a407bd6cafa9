//! The verified VPU for Rust: a safe wrapper over `include/vpu.h` (archive `libvpu_c.a`). A `Vpu` owns the memory
//! that the calls are lent, so that lengths are right, nothing overlaps, and each call goes on from the state that
//! the last one gave back.

#[path = "ffi.rs"]
mod ffi;

use ffi::{vpu_feed, vpu_pixel, vpu_reset, Colour, State};

pub const WIDTH: usize = 320;
pub const HEIGHT: usize = 240;
pub const PLANE_BYTES: usize = 4 * PIXELS;
pub const STORE_WORDS_MOST: usize = 16_777_216;
const PIXELS: usize = WIDTH * HEIGHT;
const COMMAND_WORDS: usize = 524_291;

/// Why a call was refused. A refused call changes nothing.
#[derive(Clone, Copy, Debug, PartialEq, Eq)]
pub enum Refused {
    /// A lent length is wrong. For a `Vpu` this means a store of more than `STORE_WORDS_MOST` words.
    WrongLength,
    /// The state is not well formed. The state of a `Vpu` always is.
    Malformed,
}

fn accepted(answer: u32) -> Result<(), Refused> {
    match answer {
        0 => Ok(()),
        1 => Err(Refused::WrongLength),
        _ => Err(Refused::Malformed),
    }
}

pub struct Vpu {
    state: State,
    plane: Vec<u8>,
    depth: Vec<i32>,
    depth_f32: Vec<f32>,
    command: Vec<u32>,
    textures: Vec<u32>,
    models: Vec<u32>,
}

impl Vpu {
    /// A machine that was just reset, with stores of so many words. There is none if the reset is refused.
    pub fn new(texture_words: usize, model_words: usize) -> Result<Self, Refused> {
        let mut plane = vec![0; PLANE_BYTES];
        let mut depth = vec![0; PIXELS];
        let mut depth_f32 = vec![0.0; PIXELS];
        let command = vec![0; COMMAND_WORDS];
        let mut textures = vec![0; texture_words];
        let mut models = vec![0; model_words];
        // SAFETY: every pointer is that of a vector of its own, and its length follows.
        let fed = unsafe {
            vpu_reset(
                plane.as_mut_ptr(),
                plane.len(),
                depth.as_mut_ptr(),
                depth.len(),
                depth_f32.as_mut_ptr(),
                depth_f32.len(),
                command.as_ptr(),
                command.len(),
                textures.as_mut_ptr(),
                textures.len(),
                models.as_mut_ptr(),
                models.len(),
            )
        };
        accepted(fed.answer)?;
        Ok(Self { state: fed.state, plane, depth, depth_f32, command, textures, models })
    }

    /// Feeds a run of words. The status shows whether a command was refused.
    pub fn feed(&mut self, words: &[u32]) -> Result<(), Refused> {
        // SAFETY: as in `new`; the words are borrowed for reading, and are none of the vectors.
        let fed = unsafe {
            vpu_feed(
                self.state,
                words.as_ptr(),
                words.len(),
                self.plane.as_mut_ptr(),
                self.plane.len(),
                self.depth.as_mut_ptr(),
                self.depth.len(),
                self.depth_f32.as_mut_ptr(),
                self.depth_f32.len(),
                self.command.as_mut_ptr(),
                self.command.len(),
                self.textures.as_mut_ptr(),
                self.textures.len(),
                self.models.as_mut_ptr(),
                self.models.len(),
            )
        };
        self.state = fed.state;
        accepted(fed.answer)
    }

    /// The four bytes of a pixel: red, green, blue, alpha. Zeros outside the plane.
    pub fn pixel(&self, x: usize, y: usize) -> [u8; 4] {
        // SAFETY: the plane is lent for reading.
        let Colour { answer: _, r, g, b, a } =
            unsafe { vpu_pixel(self.plane.as_ptr(), self.plane.len(), x, y) };
        [r, g, b, a]
    }

    /// Four bytes for each pixel, row by row.
    pub fn plane(&self) -> &[u8] {
        &self.plane
    }

    /// Bit 2: a zero opcode; bit 3: refused; bit 6: no room.
    pub fn status(&self) -> u32 {
        self.state.status
    }
}
