//! Traps 7, 11, 12 and 17 and the second half of 16: what clipping and the depths make of unusual corners.

use crate::floats::{identity, negative_zero_depth};
use crate::replay::Stored;
use crate::steps::NAN_DEPTH;
use crate::stored::scene::{at, clear, columns, draw, of_columns, texture, wide, Scene};
use crate::streams::{Command, Triangle};

const DRAWS: [(u8, &str); 4] = [(0x14, "14"), (0x16, "16"), (0x18, "18"), (0x19, "19")];

type Places = [[u32; 4]; 3];

/// In or beside the plane z = w: the sides of the view leave seven corners. Rounding puts every second one beyond that
/// plane, and the seven become ten.
const TEN_CORNERS: Places = [
    [0xbf13_d365, 0x3dc0_f9cc, 0x3f67_e773, 0x3f67_e772],
    [0xc5dc_abe5, 0xc5e8_85f4, 0x4538_ab64, 0x4538_ab62],
    [0x44d5_0740, 0x44aa_f134, 0x4467_cf92, 0x4467_cf94],
];

/// An edge from 2^126 to -2^126 with a small w: where it crosses a plane, rounding leaves an x 10^36 times as large as w.
/// Times 320 that overflows.
const FAR_ACROSS: Places = [
    [0x7e32_5d36, 0xb48a_1478, 0x35f6_a579, 0x3694_50b6],
    [0xfecf_c9b4, 0xb4e5_aad7, 0x360b_5a3c, 0x365c_afc2],
    [0x362f_a2d3, 0xb24f_3295, 0x3651_85d9, 0x3670_b705],
];

/// The same for y.
const FAR_DOWN: Places = [
    [0x3382_1b23, 0x7ede_b725, 0x3603_18c0, 0x3663_00e8],
    [0x339f_388a, 0xfec6_81fe, 0x362f_3335, 0x36c2_97a0],
    [0xb617_4772, 0x362d_5077, 0x362a_1e2f, 0x3680_7c13],
];

pub fn traps() -> Vec<Stored> {
    let mut streams = vec![infinite_distance(), nan_parameter(), ten_corners()];
    streams.extend(far_out());
    streams.extend(DRAWS.into_iter().map(minus_zero));
    streams.extend(DRAWS.into_iter().map(nan_depth));
    streams.extend(DRAWS.into_iter().map(first_corner_outside));
    streams
}

/// A triangle whose corners come to these places before the division by w, drawn as 14 and as 19.
fn placed(name: &str, corners: [[f32; 4]; 3]) -> Stored {
    let triangle = of_columns(wide(0.5));
    Scene::new(name)
        .all([texture(), columns(corners)])
        .all(draw(0x14, 0, &triangle))
        .seen()
        .then(clear(0x3050_70ff))
        .all(draw(0x19, 2, &triangle))
        .seen()
        .end()
}

/// x + w overflows at a corner that is inside: a port that refuses the triangle, or drops the corner, differs.
fn infinite_distance() -> Stored {
    let far = f32::MAX;
    placed("trap-07-infinite", [[far, 0.0, 0.0, far], [-0.8, -0.7, 0.5, 1.0], [-0.6, 0.8, 0.5, 1.0]])
}

/// Here an edge from that corner leaves the view, and the place of its crossing is not a number; the rest is drawn.
fn nan_parameter() -> Stored {
    let far = f32::MAX;
    placed("trap-07-nan", [[far, 0.0, 0.0, far], [-0.8, -0.7, 0.5, 1.0], [-1.5, 0.8, 0.5, 1.0]])
}

/// A port with room for nine corners differs.
fn ten_corners() -> Stored {
    placed("trap-07-ten-corners", floats(TEN_CORNERS))
}

/// `* 320 * 0.5` overflows here, and `* 160` does not: the textured rasteriser has the first, the other one the second.
fn far_out() -> [Stored; 2] {
    [placed("trap-17-times-320", floats(FAR_ACROSS)), placed("trap-17-times-240", floats(FAR_DOWN))]
}

fn floats(places: Places) -> [[f32; 4]; 3] {
    places.map(|corner| corner.map(f32::from_bits))
}

/// Every depth is -0.0: sums that start at +0.0 store 00000000 instead of 80000000.
fn minus_zero((opcode, name): (u8, &str)) -> Stored {
    let triangle = at(wide(0.5), [[0.1, 0.1, 0.5], [0.9, 0.2, 0.5], [0.4, 0.8, 0.5]]);
    Scene::new(&format!("trap-11-minus-zero-{name}"))
        .all([texture(), Command::matrix(2, &negative_zero_depth())])
        .all(draw(opcode, 2, &triangle))
        .seen()
        .then(Command::matrix(2, &identity()))
        .all(draw(opcode, 1, &wide(0.5)))
        .seen()
        .end()
}

/// A depth that is NaN is stored, and later any depth replaces it, even 1: a port that refuses or keeps NaN differs.
fn nan_depth((opcode, name): (u8, &str)) -> Stored {
    let farthest = at(wide(0.5), [[-1.0, -1.0, 1.0], [1.0, -1.0, 1.0], [-1.0, 1.0, 1.0]]);
    let scene = Scene::new(&format!("trap-12-nan-depth-{name}")).then(texture());
    let scene = NAN_DEPTH.iter().fold(scene, |scene, positions| {
        let triangle = at(wide(0.5), positions.map(|position| position.map(f32::from_bits)));
        scene.all(draw(opcode, 2, &triangle)).seen()
    });
    scene.all(draw(opcode, 0, &farthest)).seen().end()
}

/// The first corner is cut away; the colour is still that of this corner, not of the first one left.
fn first_corner_outside((opcode, name): (u8, &str)) -> Stored {
    let mut triangle: Triangle = wide(0.5);
    triangle[0].position = [-1.75, -0.5, 0.25];
    Scene::new(&format!("trap-16-first-corner-{name}"))
        .then(texture())
        .all(draw(opcode, 1, &triangle))
        .seen()
        .then(Command::shading_mode(1))
        .then(clear(0))
        .all(draw(opcode, 2, &triangle))
        .seen()
        .end()
}
