//! A typical overlay frame: what is sent once, and what is sent for each frame.

use crate::works::{corner, texture, words_of};
use vpu_oracle::floats;
use vpu_oracle::maker::{Camera, Maker};
use vpu_oracle::random::Random;
use vpu_oracle::streams::{Command, Triangle};

/// A rectangle of the screen as two triangles with the whole texture.
pub fn rectangle([left, top, right, bottom]: [f32; 4], z: f32, rgba: [u32; 2]) -> [Triangle; 2] {
    let corners = [
        corner([left, top], z, [0.0, 0.0], rgba[0]),
        corner([right, top], z, [1.0, 0.0], rgba[0]),
        corner([right, bottom], z, [1.0, 1.0], rgba[1]),
        corner([left, bottom], z, [0.0, 1.0], rgba[1]),
    ];
    [[corners[0], corners[1], corners[2]], [corners[0], corners[2], corners[3]]]
}

/// A rectangle of one colour, of two flat triangles.
fn plate([left, top, right, bottom]: [i32; 4], depth: i32, rgb: u32) -> [Command; 2] {
    let corners = [[left, top, depth], [right, top, depth], [right, bottom, depth], [left, bottom, depth]];
    [[0, 1, 2], [0, 2, 3]].map(|places| Command::flat(places.map(|place: usize| corners[place]), rgb, 255))
}

/// What is sent once: a portrait, a badge, and the badge's lit model of 24 triangles.
fn uploads() -> Vec<u32> {
    let mut maker = Maker::new(Random::named("overlay", 1, 0));
    maker.set_camera(Camera::Orthographic);
    let badge: Vec<(u32, Triangle)> = (0..24).map(|_| (2, maker.triangle_of_size(0.5))).collect();
    let light = Command::light(0, 1, &std::array::from_fn(|i| if i < 9 { 0.3 } else { (i % 3) as f32 }));
    words_of(&[texture(1, 96, 128), texture(2, 64, 64), Command::model(3, &badge), light])
}

/// Turned, small, and in the upper right corner.
fn badge() -> Vec<Command> {
    let turned = floats::rotation(&mut Random::named("overlay", 1, 1));
    let mut placed = floats::scale(0.25);
    (placed[3], placed[7]) = (0.7, 0.6);
    let matrices = [turned, placed, floats::orthographic()];
    let mut commands: Vec<Command> =
        (0..3).map(|index| Command::matrix(index, &matrices[index as usize])).collect();
    commands.extend([Command::lighting(1), Command::draw_model(3, 2)]);
    commands
}

/// A stat plate with six bars, a portrait in its frame, a fading banner and a turned, lit badge.
pub fn overlay() -> (Vec<u32>, Vec<u32>) {
    let mut frame = vec![Command::clear(3, 0, 0)];
    frame.extend(plate([8, 170, 311, 231], 100, 0x0010_2040));
    for bar in 0..6 {
        let top = 178 + 8 * bar;
        frame.extend(plate([120, top, 150 + 25 * bar, top + 5], 90, 0x00f0_c020 + 0x10 * bar as u32));
    }
    frame.extend(plate([14, 90, 105, 226], 80, 0x00e0_e0e0));
    frame.extend([Command::shading_mode(1), Command::lighting(0)]);
    frame.extend((0..3).map(|index| Command::matrix(index, &floats::identity())));
    let banner = rectangle([110.0, 140.0, 311.0, 166.0], 0.75, [0x2040_80ff, 0x80c0_ffff]);
    frame.extend(banner.iter().map(Command::transformed));
    let portrait = rectangle([18.0, 94.0, 102.0, 222.0], 0.5, [0xffff_ffff; 2]);
    frame.extend(portrait.iter().map(|triangle| Command::textured(1, 1, triangle)));
    frame.extend(badge());
    (uploads(), words_of(&frame))
}
