//! Traps 4 to 6 and the first half of 16: which colour a triangle has.

use crate::floats::{identity, translation};
use crate::replay::Stored;
use crate::stored::scene::{at, clear, coloured, draw, light, plain_texture, texture, wide, Scene, HELD};
use crate::streams::{Command, Triangle};

pub fn traps() -> Vec<Stored> {
    let mut streams = Vec::new();
    for (opcode, name) in [(0x18, "18"), (0x19, "19"), (0x1b, "1b")] {
        for mode in 0..3 {
            streams.push(too_bright(opcode, name, mode));
            streams.push(normals(opcode, name, mode));
        }
    }
    streams.extend([normals_of_16("flat", 0), normals_of_16("smooth", 1)]);
    streams.extend([one_by_one(), from_the_right(), specular_behind(), unlit()]);
    streams
}

/// Two and a half times as bright as white: mode 1 multiplies by 2.5, mode 2 by 1; mode 0 does not multiply and leaves the
/// alpha. A port that clamps in mode 1, does not in mode 2, or lights mode 0, differs.
fn too_bright(opcode: u8, name: &str, mode: u32) -> Stored {
    let grey = coloured(wide(0.5), 0xffff_ff90);
    Scene::new(&format!("trap-04-{name}-mode-{mode}"))
        .all([plain_texture(0x6a4b), light(0, [2.5, 0.0, 0.0, 0.0], [0.0, 0.0, 4.0])])
        .all(draw(opcode, mode, &wide(0.75)))
        .seen()
        .then(Command::lighting(1))
        .all(draw(opcode, mode, &grey))
        .seen()
        .end()
}

/// Turned away from the eye's axis, with normals that point elsewhere.
fn tilted() -> Triangle {
    let mut triangle = at(wide(0.0), [[-0.8, -0.7, 0.1], [0.9, -0.6, 0.4], [0.1, 0.8, 0.9]]);
    triangle[0].normal = [-1.0, 0.25, -0.5];
    triangle
}

/// A light beside the triangle and one behind the eye, so that both normals and the place matter.
fn two_lights() -> [Command; 3] {
    let side = light(1, [0.05, 0.75, 0.4, 0.0], [-1.5, 0.5, 1.0]);
    let front = light(6, [0.0, 0.3, 0.6, 0.05], [0.25, -0.5, 3.0]);
    [Command::lighting(1), side, front]
}

/// 18 takes the face's normal in modes 1 and 2; 19 and 1B take it in mode 1 and the corners' own in mode 2. Any other
/// choice gives other colours.
fn normals(opcode: u8, name: &str, mode: u32) -> Stored {
    Scene::new(&format!("trap-05-{name}-mode-{mode}"))
        .all(two_lights())
        .then(texture())
        .all(draw(opcode, mode, &tilted()))
        .seen()
        .then(clear(0x0000_00ff))
        .then(Command::matrix(0, &translation([0.25, -0.125, 0.0625])))
        .all(draw(opcode, mode, &tilted()))
        .seen()
        .end()
}

/// Shading mode 0 takes the normalised sum of the three normals at the first corner, mode 1 each corner by itself. The
/// face's normal, the first corner's or the middle of the triangle give other colours.
fn normals_of_16(name: &str, mode: u32) -> Stored {
    Scene::new(&format!("trap-05-16-{name}"))
        .all(two_lights())
        .then(Command::shading_mode(mode))
        .shows(Command::transformed_with_normals(&tilted()))
        .all([Command::matrix(1, &translation([0.0, 0.25, 0.125])), clear(0x4040_40ff)])
        .shows(Command::transformed_with_normals(&wide(0.25)))
        .end()
}

/// A light of 0.5, then one whose terms are 2^25 and -2^25: their sum is 0 and leaves the 0.5. Added to the colour one by
/// one, they take it away.
fn one_by_one() -> Stored {
    let half = light(0, [0.5, 0.0, 0.0, 0.0], [0.0, 0.0, 4.0]);
    let large = light(1, [33_554_432.0, 0.0, 0.0, -33_554_432.0], [0.0, 0.0, 4.0]);
    of_terms("trap-06-one-by-one", &[half, large])
}

/// The last light is 2^23 - 2^23 + 0 + 0.25 from the left; from the right the 0.25 is lost. The first two lights cancel, and
/// the 0.5 of the first is lost with them.
fn from_the_right() -> Stored {
    let terms = light(0, [33_554_432.0, 0.0, 0.0, 0.5], [0.0, 0.0, 4.0]);
    let back = light(1, [-33_554_432.0, 0.0, 0.0, 0.0], [0.0, 0.0, 4.0]);
    let alone = light(2, [8_388_608.0, -8_388_608.0, 0.0, 0.25], [0.0, 0.0, 1.0e6]);
    of_terms("trap-06-from-the-right", &[terms, back, alone])
}

fn of_terms(name: &str, lights: &[Command]) -> Stored {
    let mut facing = coloured(wide(0.5), 0xffff_ffff);
    facing.iter_mut().for_each(|corner| corner.normal = [0.0, 0.0, 1.0]);
    Scene::new(name)
        .then(Command::lighting(1))
        .all(lights.to_vec())
        .shows(Command::transformed_with_normals(&facing))
        .then(texture())
        .then(clear(0x0000_00ff))
        .shows(Command::textured_lit(HELD, 1, &facing))
        .end()
}

/// The light is a little behind the face and the eye is before it, so half-way between them is before it too. Without the
/// test that the face is lit at all, there would be a highlight.
fn specular_behind() -> Stored {
    let mut triangle = coloured(wide(0.5), 0x8080_80ff);
    triangle.iter_mut().for_each(|corner| corner.normal = [-1.0, 0.0, 0.25]);
    let view = translation([2.0, 0.0, -1.0]);
    let back = translation([-2.0, 0.0, 1.0]);
    Scene::new("trap-06-highlight-behind")
        .all([Command::lighting(1), light(3, [0.1, 0.5, 400.0, 0.0], [7.0, 0.0, 12.0])])
        .all([Command::matrix(1, &view), Command::matrix(2, &back), Command::shading_mode(1)])
        .shows(Command::transformed_with_normals(&triangle))
        .all([Command::matrix(1, &identity()), Command::matrix(2, &identity())])
        .shows(Command::transformed_with_normals(&wide(0.25)))
        .end()
}

/// 14 keeps its colours while lighting is on, in both shading modes. A port that lights it with any normal differs.
fn unlit() -> Stored {
    Scene::new("trap-16-14-unlit")
        .all(two_lights())
        .shows(Command::transformed(&wide(0.5)))
        .all([Command::shading_mode(1), clear(0x2020_20ff)])
        .shows(Command::transformed(&wide(0.5)))
        .end()
}
