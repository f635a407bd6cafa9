//! The C interface of `include/vpu.h` for Rust: the structs and the three calls, as they are. The safe wrapper `vpu.rs`
//! includes this file, and so does the oracle (`oracle/src/beside/port.rs`).

use std::mem::{offset_of, size_of};

#[repr(C)]
#[derive(Clone, Copy)]
pub struct Light {
    pub enabled: u8,
    pub ambient: [f32; 3],
    pub diffuse: [f32; 3],
    pub specular: [f32; 3],
    pub emission: [f32; 3],
    pub position: [f32; 3],
}

#[repr(C)]
#[derive(Clone, Copy)]
pub struct Slot {
    pub held: u8,
    pub number: u32,
    pub width: u32,
    pub height: u32,
    pub start: u32,
}

#[repr(C)]
#[derive(Clone, Copy)]
pub struct State {
    pub matrices: [f32; 48],
    pub shading_mode: u32,
    pub lighting_enabled: u8,
    pub lights: [Light; 8],
    pub textures: [Slot; 64],
    pub models: [Slot; 64],
    pub opcode: u32,
    pub gathered: u32,
    pub wanted: u32,
    pub status: u32,
}

#[repr(C)]
pub struct Fed {
    pub answer: u32,
    pub state: State,
}

#[repr(C)]
pub struct Colour {
    pub answer: u32,
    pub r: u8,
    pub g: u8,
    pub b: u8,
    pub a: u8,
}

// The layout that examples/layout.c tries field by field.
const _: () = {
    assert!(size_of::<Light>() == 64 && offset_of!(Light, enabled) == 0);
    assert!(
        offset_of!(Light, ambient) == 4
            && offset_of!(Light, diffuse) == 16
            && offset_of!(Light, specular) == 28
    );
    assert!(offset_of!(Light, emission) == 40 && offset_of!(Light, position) == 52);
    assert!(size_of::<Slot>() == 20 && offset_of!(Slot, held) == 0 && offset_of!(Slot, number) == 4);
    assert!(offset_of!(Slot, width) == 8 && offset_of!(Slot, height) == 12 && offset_of!(Slot, start) == 16);
    assert!(
        size_of::<State>() == 3288
            && offset_of!(State, matrices) == 0
            && offset_of!(State, shading_mode) == 192
    );
    assert!(offset_of!(State, lighting_enabled) == 196 && offset_of!(State, lights) == 200);
    assert!(offset_of!(State, textures) == 712 && offset_of!(State, models) == 1992);
    assert!(offset_of!(State, opcode) == 3272 && offset_of!(State, gathered) == 3276);
    assert!(offset_of!(State, wanted) == 3280 && offset_of!(State, status) == 3284);
    assert!(size_of::<Fed>() == 3292 && offset_of!(Fed, answer) == 0 && offset_of!(Fed, state) == 4);
    assert!(size_of::<Colour>() == 8 && offset_of!(Colour, answer) == 0 && offset_of!(Colour, r) == 4);
    assert!(offset_of!(Colour, g) == 5 && offset_of!(Colour, b) == 6 && offset_of!(Colour, a) == 7);
};

extern "C" {
    pub fn vpu_reset(
        plane: *mut u8,
        plane_length: usize,
        depth: *mut i32,
        depth_length: usize,
        depth_f32: *mut f32,
        depth_f32_length: usize,
        command: *const u32,
        command_length: usize,
        textures: *mut u32,
        textures_length: usize,
        models: *mut u32,
        models_length: usize,
    ) -> Fed;
    pub fn vpu_feed(
        state: State,
        words: *const u32,
        words_length: usize,
        plane: *mut u8,
        plane_length: usize,
        depth: *mut i32,
        depth_length: usize,
        depth_f32: *mut f32,
        depth_f32_length: usize,
        command: *mut u32,
        command_length: usize,
        textures: *mut u32,
        textures_length: usize,
        models: *mut u32,
        models_length: usize,
    ) -> Fed;
    pub fn vpu_pixel(plane: *const u8, plane_length: usize, x: usize, y: usize) -> Colour;
}
