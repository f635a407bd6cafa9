//! The port's C interface (archive `libvpu_c.a`), and a machine that lends it its memory.

#[path = "../../../examples/ffi.rs"]
mod ffi;

pub use ffi::{Slot, State};

use ffi::{vpu_feed, vpu_pixel, vpu_reset, Light};
use vpu_oracle::judge::{Start, AREA};

/// What is in the state before a reset gives one.
const NO_LIGHT: Light = Light {
    enabled: 0,
    ambient: [0.0; 3],
    diffuse: [0.0; 3],
    specular: [0.0; 3],
    emission: [0.0; 3],
    position: [0.0; 3],
};
const NO_SLOT: Slot = Slot { held: 0, number: 0, width: 0, height: 0, start: 0 };
const NO_STATE: State = State {
    matrices: [0.0; 48],
    shading_mode: 0,
    lighting_enabled: 0,
    lights: [NO_LIGHT; 8],
    textures: [NO_SLOT; 64],
    models: [NO_SLOT; 64],
    opcode: 0,
    gathered: 0,
    wanted: 0,
    status: 0,
};

impl Light {
    fn terms(&self) -> [[f32; 3]; 5] {
        [self.ambient, self.diffuse, self.specular, self.emission, self.position]
    }
}

impl State {
    /// Field by field, in the order of the struct.
    pub fn words(&self) -> Vec<u32> {
        let mut words: Vec<u32> = self.matrices.iter().map(|value| value.to_bits()).collect();
        words.extend([self.shading_mode, self.lighting_enabled as u32]);
        for light in &self.lights {
            words.push(light.enabled as u32);
            words.extend(light.terms().concat().iter().map(|value| value.to_bits()));
        }
        for slot in self.textures.iter().chain(&self.models) {
            words.extend([slot.held as u32, slot.number, slot.width, slot.height, slot.start]);
        }
        words.extend([self.opcode, self.gathered, self.wanted, self.status]);
        words
    }
}

const PIXELS: usize = 76_800;

/// The longest store that may be lent.
pub const MOST_STORE: usize = 16_777_216;

/// Lengths of plane, depths, float depths, command area, texture store and model store.
pub type Lengths = [usize; 6];

/// The port's state and the six memories that it is lent. Each has one element more than may be lent. So a length that
/// is too great by one is still true, and what is after the lent part can be seen to stay. The parts of the stores that
/// are not touched take no memory.
pub struct Port {
    plane: Vec<u8>,
    depth: Vec<i32>,
    depth_f32: Vec<f32>,
    command: Vec<u32>,
    stores: [Vec<u32>; 2],
    pub lengths: Lengths,
    pub state: State,
}

/// What is after the lent part of a store.
const AFTER: u32 = 0xa5a5_5a5a;

impl Port {
    /// A machine that is not yet reset. The memories hold something.
    pub fn new() -> Self {
        Self {
            plane: vec![0x5a; 4 * PIXELS + 1],
            depth: vec![-77; PIXELS + 1],
            depth_f32: vec![f32::NAN; PIXELS + 1],
            command: vec![0; AREA + 1],
            stores: [0; 2].map(|_| vec![0; MOST_STORE + 1]),
            lengths: [4 * PIXELS, PIXELS, PIXELS, AREA, 0, 0],
            state: NO_STATE,
        }
    }

    /// Returns the answer.
    pub fn reset(&mut self, start: Start) -> u32 {
        for (place, length) in start.stores.into_iter().enumerate() {
            self.lengths[4 + place] = length;
            self.stores[place][length] = AFTER;
        }
        let (answer, state) = self.try_reset(self.lengths);
        self.state = State { status: start.status, ..state };
        answer
    }

    /// Returns the answer.
    pub fn feed(&mut self, words: &[u32]) -> u32 {
        let (answer, state) = self.try_feed(self.state, words, self.lengths);
        self.state = state;
        answer
    }

    pub fn plane(&self) -> &[u8] {
        &self.plane[..4 * PIXELS]
    }

    pub fn depth(&self) -> &[i32] {
        &self.depth[..PIXELS]
    }

    pub fn depth_f32(&self) -> &[f32] {
        &self.depth_f32[..PIXELS]
    }

    pub fn command(&self) -> &[u32] {
        &self.command[..AREA]
    }

    /// The texture store or the model store.
    pub fn store(&self, place: usize) -> &[u32] {
        &self.stores[place][..self.lengths[4 + place]]
    }

    /// Whether the elements after the lent parts are as they were.
    pub fn stayed_within(&self) -> bool {
        let stores = [0, 1].map(|place| self.stores[place][self.lengths[4 + place]]);
        (self.plane[4 * PIXELS], self.depth[PIXELS], self.command[AREA]) == (0x5a, -77, 0)
            && self.depth_f32[PIXELS].is_nan()
            && stores == [AFTER; 2]
    }
}

/// The calls as they are.
impl Port {
    pub fn try_reset(&mut self, lengths: Lengths) -> (u32, State) {
        self.assert_there(lengths);
        // SAFETY: every pointer is that of a vector of at least the length that follows.
        let fed = unsafe {
            vpu_reset(
                self.plane.as_mut_ptr(),
                lengths[0],
                self.depth.as_mut_ptr(),
                lengths[1],
                self.depth_f32.as_mut_ptr(),
                lengths[2],
                self.command.as_ptr(),
                lengths[3],
                self.stores[0].as_mut_ptr(),
                lengths[4],
                self.stores[1].as_mut_ptr(),
                lengths[5],
            )
        };
        (fed.answer, fed.state)
    }

    pub fn try_feed(&mut self, state: State, words: &[u32], lengths: Lengths) -> (u32, State) {
        self.assert_there(lengths);
        // SAFETY: as in `try_reset`; the words are lent for reading.
        let fed = unsafe {
            vpu_feed(
                state,
                words.as_ptr(),
                words.len(),
                self.plane.as_mut_ptr(),
                lengths[0],
                self.depth.as_mut_ptr(),
                lengths[1],
                self.depth_f32.as_mut_ptr(),
                lengths[2],
                self.command.as_mut_ptr(),
                lengths[3],
                self.stores[0].as_mut_ptr(),
                lengths[4],
                self.stores[1].as_mut_ptr(),
                lengths[5],
            )
        };
        (fed.answer, fed.state)
    }

    pub fn try_pixel(&self, length: usize, x: usize, y: usize) -> (u32, (u8, u8, u8, u8)) {
        assert!(length <= self.plane.len());
        // SAFETY: the plane is lent for reading.
        let colour = unsafe { vpu_pixel(self.plane.as_ptr(), length, x, y) };
        (colour.answer, (colour.r, colour.g, colour.b, colour.a))
    }

    fn assert_there(&self, lengths: Lengths) {
        let [textures, models] = &self.stores;
        let (plane, depth, depth_f32) = (self.plane.len(), self.depth.len(), self.depth_f32.len());
        let there = [plane, depth, depth_f32, self.command.len(), textures.len(), models.len()];
        assert!(lengths.iter().zip(there).all(|(length, there)| *length <= there));
    }
}
