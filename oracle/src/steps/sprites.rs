//! Sprites of textures of all shapes, among clears, flat triangles and textured ones.

use crate::maker::Maker;
use crate::sprites::{any_sprite, sheets, Alpha, Sheet};
use crate::streams::Command;

/// Of a hundred streams, so many begin with the largest texture that there is. A second one would have no room.
const LARGEST: u32 = 2;

#[rustfmt::skip]
const SIDES: [[u32; 2]; 16] = [
    [1, 1], [2, 1], [1, 2], [3, 3], [5, 7], [7, 5], [8, 8], [13, 4], [4, 13], [16, 9], [9, 16], [21, 13], [32, 3],
    [31, 17], [1, 1024], [1024, 1],
];

fn upload(maker: &mut Maker) {
    let largest = maker.textures.is_empty() && maker.random.chance(LARGEST);
    let sides = if largest { [1024, 1024] } else { maker.random.pick(&SIDES) };
    let alpha = match maker.random.below(8) {
        0 => Alpha::Clear,
        1 | 2 => Alpha::Drawn,
        _ => Alpha::Mixed,
    };
    let sheet = Sheet { number: maker.random.below(6), sides };
    maker.upload_sheet(sheet, alpha);
}

/// What shows whether depths matter to a sprite, or it to them.
fn between(maker: &mut Maker) {
    let command = match maker.random.below(6) {
        0 => Command::clear(maker.random.below(4), maker.colour(), 0),
        1 | 2 => maker.flat_around(60),
        3 => {
            let triangle = maker.triangle_of_size(0.5);
            Command::textured(maker.held_texture(), maker.mode(), &triangle)
        }
        _ => return,
    };
    maker.send(command);
}

pub fn sprites(maker: &mut Maker) {
    if maker.textures.is_empty() || maker.random.chance(30) {
        upload(maker);
    }
    for _ in 0..1 + maker.random.below(3) {
        let held = sheets(&maker.stream, maker.stream.words.len());
        let sheet = maker.random.pick(&held);
        let command = any_sprite(sheet, &mut maker.random);
        maker.send(command);
    }
    between(maker);
}
