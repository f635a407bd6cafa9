//! Streams that see a mistake of `oracle/mistakes` that hardly any other stream sees.

use super::scene::{at, clear, coloured, draw, light, texture, wide, Scene};
use crate::floats::{diagonal, identity, power_of_two};
use crate::replay::Stored;
use crate::streams::Command;

const DRAWS: [(u8, &str); 4] = [(0x14, "14"), (0x16, "16"), (0x18, "18"), (0x19, "19")];

pub fn extras() -> Vec<Stored> {
    let mut streams: Vec<Stored> =
        DRAWS.into_iter().flat_map(|draw| [small_w(draw), pixel_centres(draw)]).collect();
    streams.push(short_normals());
    streams
}

/// w of 2^-30 and of 2^-23 is too small; with the next one the triangle is drawn.
fn small_w((opcode, name): (u8, &str)) -> Stored {
    let next = f32::from_bits(f32::EPSILON.to_bits() + 1);
    let scene = Scene::new(&format!("extra-small-w-{name}")).then(texture()).seen();
    let scene = [power_of_two(-30), f32::EPSILON, next].into_iter().fold(scene, |scene, w| {
        scene.then(Command::matrix(2, &diagonal(w, w, w, w))).all(draw(opcode, 0, &wide(0.5))).seen()
    });
    scene.then(Command::matrix(2, &identity())).all(draw(opcode, 0, &wide(0.25))).seen().end()
}

/// The places of the screen whose floats are exact: 2.5 across and 7.5 down, times any whole number.
fn exact([across, down]: [f32; 2]) -> [f32; 3] {
    [across / 64.0 - 1.0, 1.0 - down / 16.0, 0.5]
}

/// Corners on the centres of pixels and edges along rows and columns of them, in both orientations. The second triangle shares
/// an edge with the first at the same depth: pixels on it keep the first one's colour.
fn pixel_centres((opcode, name): (u8, &str)) -> Stored {
    let corners = [[9.0, 3.0], [75.0, 3.0], [9.0, 13.0], [75.0, 13.0]].map(exact);
    let first = at(wide(0.5), [corners[0], corners[1], corners[2]]);
    let second = coloured(at(wide(0.5), [corners[3], corners[1], corners[2]]), 0x10f0_90ff);
    let backwards = at(wide(0.5), [corners[1], corners[0], corners[2]]);
    Scene::new(&format!("extra-pixel-centres-{name}"))
        .then(texture())
        .all(draw(opcode, 1, &first))
        .seen()
        .all(draw(opcode, 2, &second))
        .seen()
        .then(clear(0x2244_66ff))
        .all(draw(opcode, 1, &backwards))
        .seen()
        .end()
}

/// Normals 2^-23 long count as (0, 0, 1), the next longer ones as what they are.
fn short_normals() -> Stored {
    let next = f32::from_bits(f32::EPSILON.to_bits() + 1);
    let above = light(4, [0.1, 0.9, 0.0, 0.0], [0.0, 9.0, 1.0]);
    let scene =
        Scene::new("extra-short-normals").all([Command::lighting(1), Command::shading_mode(1), above]).seen();
    let scene = [f32::EPSILON, next].into_iter().fold(scene, |scene, length| {
        let mut triangle = wide(0.5);
        triangle.iter_mut().for_each(|corner| corner.normal = [0.0, length, 0.0]);
        scene.then(clear(0x0000_00ff)).shows(Command::transformed_with_normals(&triangle))
    });
    scene.end()
}
