//! Traps 1 to 3: positions that overflow, matrices that cannot be inverted, denominators that vanish.

use crate::floats::{diagonal, identity, power_of_two};
use crate::replay::Stored;
use crate::stored::scene::{at, draw, texture, wide, Scene};
use crate::streams::{Command, Triangle};

const DRAWS: [(u8, &str); 5] = [(0x14, "14"), (0x16, "16"), (0x18, "18"), (0x19, "19"), (0x1b, "1b")];

pub fn traps() -> Vec<Stored> {
    let mut streams: Vec<Stored> = DRAWS.into_iter().map(overflow).collect();
    streams.extend(DRAWS.into_iter().map(singular));
    streams.extend(DRAWS.into_iter().map(barely_singular));
    streams.extend([barely_regular(), infinite_determinant()]);
    streams.extend([DRAWS[1], DRAWS[3]].map(view_times_model));
    streams.extend([depth_only("trap-03-depth-only", 24), depth_only("trap-03-exactly-2-23", 23)]);
    streams
}

/// w overflows at the third corner, which is then in the middle of the screen.
fn overflowing() -> (Command, Triangle) {
    let mut matrix = identity();
    matrix[14] = f32::MAX;
    let triangle = at(wide(0.0), [[-0.8, -0.7, 0.0], [0.9, -0.6, 0.0], [0.1, 0.8, 1.5]]);
    (Command::matrix(2, &matrix), triangle)
}

/// 14, 16 and 18 refuse; 19 and 1B draw. A port that refuses always or never has another status and picture.
fn overflow((opcode, name): (u8, &str)) -> Stored {
    let (matrix, triangle) = overflowing();
    Scene::new(&format!("trap-01-overflow-{name}"))
        .all([texture(), matrix])
        .seen()
        .all(draw(opcode, 2, &triangle))
        .seen()
        .then(Command::matrix(2, &identity()))
        .all(draw(0x18, 2, &wide(0.75)))
        .seen()
        .end()
}

/// A draw with this model matrix and, after it, another one with the identity.
fn under_matrix(name: String, matrices: &[[f32; 16]; 3], opcode: u8) -> Stored {
    let settings = |matrices: [[f32; 16]; 3]| (0..3).map(move |i| Command::matrix(i, &matrices[i as usize]));
    Scene::new(&name)
        .then(texture())
        .all(settings(*matrices))
        .seen()
        .all(draw(opcode, 0, &wide(0.25)))
        .seen()
        .all(settings([identity(); 3]))
        .all(draw(opcode, 0, &wide(0.75)))
        .seen()
        .end()
}

/// 16, 19 and 1B refuse, though lighting is off and the mode is 0; 14 and 18 draw. A port that looks only if light needs
/// it, or that looks always, differs.
fn singular((opcode, name): (u8, &str)) -> Stored {
    let matrices = [diagonal(1.0, 1.0, 0.0, 1.0), identity(), identity()];
    under_matrix(format!("trap-02-singular-{name}"), &matrices, opcode)
}

/// A determinant of exactly 2^-23 is too small: with `<` for `<=` these are drawn.
fn barely_singular((opcode, name): (u8, &str)) -> Stored {
    let matrices = [diagonal(1.0, 1.0, f32::EPSILON, 1.0), identity(), identity()];
    under_matrix(format!("trap-02-exactly-2-23-{name}"), &matrices, opcode)
}

/// The next determinant is large enough.
fn barely_regular() -> Stored {
    let next = f32::from_bits(f32::EPSILON.to_bits() + 1);
    let matrices = [identity(), diagonal(1.0, 1.0, -next, 1.0), diagonal(1.0, 1.0, -1.0, 1.0)];
    under_matrix("trap-02-above-2-23".to_string(), &matrices, 0x16)
}

/// A determinant that overflows is refused too, though the picture would be an ordinary one.
fn infinite_determinant() -> Stored {
    let (large, small) = (power_of_two(50), power_of_two(-50));
    let matrices = [diagonal(large, large, large, 1.0), identity(), diagonal(small, small, small, 1.0)];
    under_matrix("trap-02-infinite".to_string(), &matrices, 0x19)
}

/// View times model is nearly the identity, model times view overflows: multiplied in the other order they are refused.
fn view_times_model((opcode, name): (u8, &str)) -> Stored {
    let (large, small) = (power_of_two(120), power_of_two(-120));
    let mut model = diagonal(small, large, 1.0, 1.0);
    model[4] = power_of_two(20);
    let matrices = [model, diagonal(large, small, 1.0, 1.0), identity()];
    under_matrix(format!("trap-02-order-{name}"), &matrices, opcode)
}

/// The depth is stored and the pixel is not: a port that tests the denominator before it stores, or not at all, differs at
/// once and again in the farther triangle, which is hidden.
fn depth_only(name: &str, exponent: i32) -> Stored {
    let w = power_of_two(exponent);
    Scene::new(name)
        .all([Command::shading_mode(1), Command::matrix(2, &diagonal(w, w, w, w))])
        .seen()
        .shows(Command::transformed(&wide(0.25)))
        .then(Command::matrix(2, &identity()))
        .shows(Command::transformed_with_normals(&wide(0.5)))
        .shows(Command::transformed_with_normals(&wide(0.1875)))
        .end()
}
