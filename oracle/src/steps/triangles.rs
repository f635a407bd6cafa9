//! Transformed and textured triangles, clipping and matrices.

use crate::floats;
use crate::maker::{Camera, Maker};
use crate::streams::{Command, Triangle};

pub fn transformed(maker: &mut Maker) {
    if maker.random.chance(40) {
        maker.any_setting();
    }
    let triangle = maker.triangle();
    let with_normals = maker.random.chance(65);
    maker.send(if with_normals {
        Command::transformed_with_normals(&triangle)
    } else {
        Command::transformed(&triangle)
    });
    if maker.random.chance(12) {
        maker.refresh();
    }
}

pub fn textured(maker: &mut Maker) {
    if maker.random.chance(40) {
        maker.any_setting();
    }
    let (number, mode, triangle) = (maker.held_texture(), maker.mode(), maker.triangle());
    let lit = maker.random.chance(50);
    maker.send(if lit {
        Command::textured_lit(number, mode, &triangle)
    } else {
        Command::textured(number, mode, &triangle)
    });
    if maker.random.chance(12) {
        maker.refresh();
    }
}

/// A coordinate on, just beyond, or far beyond one of the six planes, for a corner with w = 1.
fn beyond(maker: &mut Maker, plane: u32) -> f32 {
    let (limit, away) =
        [(-1.0, -1.0), (1.0, 1.0), (-1.0, -1.0), (1.0, 1.0), (0.0, -1.0), (1.0, 1.0)][plane as usize];
    let distance = match maker.random.below(8) {
        0 => 0.0,
        1 => 1.5e-7,
        2 => maker.random.float(1.0e3, 1.0e6),
        3 => maker.random.float(1.0e20, 1.0e38),
        4 => maker.random.float(1.0, 4.0),
        _ => maker.random.float(0.0, 0.6),
    };
    limit + away * distance
}

/// A large triangle inside, with one or two corners moved over one to three planes.
fn crossing(maker: &mut Maker) -> Triangle {
    let mut triangle = maker.triangle_of_size(0.6);
    for corner in &mut triangle {
        corner.position = maker.point();
    }
    for _ in 0..maker.random.pick(&[1, 1, 1, 2, 3]) {
        let plane = maker.random.below(6);
        let moved = maker.random.pick(&[1, 1, 2]);
        for corner in &mut triangle[..moved] {
            corner.position[plane as usize / 2] = beyond(maker, plane);
        }
    }
    triangle.rotate_left(maker.random.below(3) as usize);
    triangle
}

pub fn clipping(maker: &mut Maker) {
    if maker.random.chance(25) {
        maker.set_camera(Camera::Fresh);
        if maker.random.chance(60) {
            let matrix = floats::tilted(&mut maker.random);
            maker.send(Command::matrix(2, &matrix));
        }
    }
    let triangle = crossing(maker);
    let command = if maker.random.chance(15) {
        let record = (maker.held_texture(), triangle);
        maker.send(Command::model(7, &[record, record]));
        Command::draw_model(7, maker.mode())
    } else {
        maker.draw_of(&triangle)
    };
    maker.send(command);
    if maker.random.chance(25) {
        maker.refresh();
    }
}

/// Three matrices that undo each other, so that draws still show: a determinant near 2^-23, large and small scales, or
/// a w so large that shading mode 1 stores the depth and skips the pixel.
fn undoing_matrices(maker: &mut Maker) -> [floats::Matrix; 3] {
    let random = &mut maker.random;
    let exponent = random.between(5, 40);
    let (large, small) = (floats::power_of_two(exponent), floats::power_of_two(-exponent));
    let plain = floats::identity();
    match random.below(6) {
        0 => [floats::scale(small), plain, floats::scale(large)],
        1 => [floats::scale(large), floats::scale(small), plain],
        2 | 3 => {
            let w = floats::power_of_two(random.between(21, 30));
            [plain, plain, floats::diagonal(w, w, w, w)]
        }
        _ => {
            let (shrunk, grown) = floats::near_singular(random);
            [shrunk, plain, grown]
        }
    }
}

/// One of the three matrices is out of the ordinary.
fn odd_matrices(maker: &mut Maker) -> [floats::Matrix; 3] {
    let random = &mut maker.random;
    let mut matrices = [floats::identity(); 3];
    matrices[random.below(3) as usize] = match random.below(5) {
        0 => floats::singular(random),
        1 => floats::huge(random),
        2 => floats::filled(random, floats::subnormal),
        3 => floats::filled(random, floats::finite),
        _ => floats::filled(random, |random| random.float(-2.0, 2.0)),
    };
    matrices
}

pub fn unusual_matrices(maker: &mut Maker) {
    maker.set_camera(Camera::Fresh);
    let matrices = if maker.random.chance(65) { undoing_matrices(maker) } else { odd_matrices(maker) };
    maker.set_matrices(matrices);
}

pub fn matrices(maker: &mut Maker) {
    let mode = Command::shading_mode(maker.random.below(2));
    maker.send(mode);
    unusual_matrices(maker);
    let triangle = maker.triangle_of_size(0.8);
    let command = maker.draw_of(&triangle);
    maker.send(command);
    maker.any_camera();
    if maker.random.chance(40) {
        maker.refresh();
    }
    maker.send_draws(2);
}
