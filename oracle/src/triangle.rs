//! `oracle triangle-list` and `triangle-stdin`: what the program `triangle_test` prints and reads.

use crate::arguments::Arguments;
use std::io::Write;
use vpu_oracle::digests::{little_endian, Digests};
use vpu_oracle::original::Vpu;
use vpu_oracle::shapes::{flat, flat_beyond, shape, Kind, Texture, Triangle, KINDS};

const SEED: u64 = 2;
const TRIANGLES: u64 = 2_000;

/// Triangles for each line, drawn on buffers that are cleared before the first of them.
const LINE: usize = 50;

/// One flat triangle in ten has a coordinate at the reach or beyond it.
fn flat_triangles() -> Vec<Triangle> {
    let words = |index| if index % 10 == 9 { flat_beyond(SEED, index) } else { flat(SEED, index) };
    (0..TRIANGLES).map(|index| Triangle::Words(words(index))).collect()
}

/// The same for all kinds of float triangles.
fn shapes() -> Vec<Triangle> {
    (0..TRIANGLES).map(|index| Triangle::Floats(shape("list", SEED, index))).collect()
}

fn texture() -> Texture {
    Texture::new(8, 8, SEED)
}

pub fn stdin(arguments: &Arguments) -> Result<(), String> {
    arguments.expect(0, &[])?;
    let mut words = texture().words;
    for triangle in flat_triangles().iter().chain(&shapes()) {
        words.extend(triangle.words());
    }
    std::io::stdout().write_all(&little_endian(&words)).map_err(|error| error.to_string())
}

fn clear(vpu: &mut Vpu) {
    vpu.plane_mut().fill(0);
    vpu.depth_mut().fill(i32::MAX);
    vpu.depth_f32_mut().fill(1.0);
}

pub fn list(arguments: &Arguments) -> Result<(), String> {
    arguments.expect(0, &[])?;
    let (texture, mut vpu, mut digests) = (texture(), Vpu::new(), Digests::default());
    for (name, kind) in KINDS.into_iter().filter(|(_, kind)| *kind != Kind::Beyond) {
        let triangles = if kind == Kind::Flat { flat_triangles() } else { shapes() };
        for line in triangles.chunks(LINE) {
            clear(&mut vpu);
            line.iter().for_each(|triangle| triangle.draw(&mut vpu, kind, &texture));
            let [plane, depth, depth_f32] = digests.take(&vpu);
            println!("{name} {plane:016x} {depth:016x} {depth_f32:016x}");
        }
    }
    Ok(())
}
