//! Floats at the ends of their range, in positions and in what comes of them.

use crate::floats;
use crate::maker::{Camera, Maker};
use crate::streams::{Command, Triangle};

/// One or two floats of a good triangle are replaced; the command stays well framed.
pub fn specials(maker: &mut Maker) {
    let mut triangle = maker.triangle_of_size(0.6);
    for _ in 0..1 + maker.random.below(2) {
        let value = floats::special(&mut maker.random);
        let corner = &mut triangle[maker.random.below(3) as usize];
        match maker.random.below(8) {
            place @ 0..=2 => corner.position[place as usize] = value,
            place @ 3..=5 => corner.normal[place as usize - 3] = value,
            place => corner.uv[place as usize - 6] = value,
        }
    }
    if maker.random.chance(20) {
        tiny_normals(maker, &mut triangle);
    }
    let command = maker.draw_of(&triangle);
    maker.send(command);
    if maker.random.chance(15) {
        let terms = std::array::from_fn(|_| floats::finite(&mut maker.random));
        maker.send(Command::light(7, 1, &terms));
    }
    if maker.random.chance(30) {
        maker.any_setting();
    }
    maker.send_draws(1);
    if maker.random.chance(25) {
        maker.refresh();
    }
}

/// Normals about 2^-23 long, under lights that show which way they are taken to point.
fn tiny_normals(maker: &mut Maker, triangle: &mut Triangle) {
    let length = floats::power_of_two(maker.random.between(-25, -21));
    for corner in triangle {
        corner.normal = corner.normal.map(|part| part * length);
    }
    let light = maker.light();
    maker.send(light);
    maker.send(Command::lighting(1));
}

/// Positions with which the original stores a NaN as depth: clipping leaves corners so far out that the area and
/// the weights overflow.
pub const NAN_DEPTH: [[[u32; 3]; 3]; 5] = [
    [
        [0x74a7_ab58, 0x7407_1872, 0x3dca_96b0],
        [0xfb9e_fdcd, 0xfd53_33f5, 0x3e8b_a16c],
        [0x6491_97c2, 0x72d4_d77b, 0x3e1c_80e8],
    ],
    [
        [0xe672_62ab, 0xf2b6_1936, 0x3f1c_efb7],
        [0x7cbb_e7be, 0x6998_be78, 0x3f6f_0921],
        [0xe972_1dd2, 0x74aa_aa68, 0x3ed1_dc94],
    ],
    [
        [0xfd34_6a88, 0xf207_a636, 0x3f09_bb51],
        [0xed74_0d36, 0x7b5a_9e63, 0x3ec9_ce1c],
        [0x7725_3638, 0xfa8d_6f31, 0x3f18_f840],
    ],
    [
        [0x7508_b3b6, 0x6c88_35cd, 0x3f66_3dda],
        [0x7179_7036, 0xf034_5048, 0x3eec_d5b2],
        [0xf2a1_1f6d, 0x6591_89bf, 0x3f73_b871],
    ],
    [
        [0x71e5_cb84, 0xff2e_5fe4, 0x3f35_64b1],
        [0xf62c_5bec, 0x6a02_9700, 0x3ee5_157c],
        [0x60b6_4850, 0x77fd_4f8f, 0x3f6a_2478],
    ],
];

fn nan_depth(maker: &mut Maker) -> Triangle {
    let positions = maker.random.pick(&NAN_DEPTH);
    positions.map(|position| maker.corner(position.map(f32::from_bits)))
}

fn negative_zero_depth(maker: &mut Maker) -> Triangle {
    maker.send(Command::matrix(2, &floats::negative_zero_depth()));
    let mut triangle = maker.triangle_of_size(0.8);
    for corner in &mut triangle {
        corner.position = corner.position.map(f32::abs);
    }
    triangle
}

/// Around the centre of one pixel, with an area just under or over 2^-23.
fn speck(maker: &mut Maker) -> Triangle {
    let x = (maker.random.below(320) as f32 + 0.5) / 160.0 - 1.0;
    let y = (maker.random.below(240) as f32 + 0.5) / 120.0 - 1.0;
    let z = maker.random.unit();
    let size = floats::power_of_two(maker.random.between(-21, -18));
    [[x - size, y - size, z], [x + size, y - size, z], [x, y + size, z]].map(|place| maker.corner(place))
}

fn any_magnitude(maker: &mut Maker) -> Triangle {
    std::array::from_fn(|_| {
        let random = &mut maker.random;
        let position = [floats::any_magnitude(random), floats::any_magnitude(random), random.unit()];
        maker.corner(position)
    })
}

/// Transformed positions overflow, which 19 alone lets pass.
fn overflowing(maker: &mut Maker) -> Command {
    maker.send(Command::matrix(2, &floats::scale(f32::MAX)));
    let triangle = maker.triangle_of_size(1.5);
    Command::textured_lit(maker.held_texture(), maker.mode(), &triangle)
}

/// Depths that are NaN or -0.0, areas near 2^-23, positions of any magnitude and beyond.
pub fn extremes(maker: &mut Maker) {
    maker.set_camera(Camera::Fresh);
    let command = if maker.random.chance(15) {
        overflowing(maker)
    } else {
        let make = maker.random.pick(&[nan_depth, negative_zero_depth, speck, any_magnitude]);
        let triangle = make(maker);
        maker.draw_of(&triangle)
    };
    maker.send(command);
    maker.any_camera();
    maker.send_draws(2);
    if maker.random.chance(40) {
        maker.refresh();
    }
}
