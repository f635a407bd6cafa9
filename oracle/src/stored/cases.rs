//! Rules 9.1 to 9.11 of docs/RULES.md, as far as a stream inside the domain can show them.

use super::scene::{clear, corner, plain_texture, Scene, HELD};
use crate::replay::Stored;
use crate::streams::Command;

pub fn cases() -> Vec<Stored> {
    vec![
        zero_opcode(),
        count_zero(),
        oversized(),
        largest_count(),
        flags_4(),
        flags_7(),
        grey(),
        channels(),
        fifteen_pixels(),
        towards_zero(),
        farthest(),
        shade(),
        far_corners(),
        one_texel(),
    ]
}

fn zero_opcode() -> Stored {
    Scene::new("case-01-zero-opcode").words(&[5]).seen().shows(clear(0x1020_30ff)).end()
}

fn count_zero() -> Stored {
    Scene::new("case-01-count-0").words(&[0x0400_0000]).seen().shows(clear(0x1020_30ff)).end()
}

fn oversized() -> Stored {
    Scene::new("case-02-oversized").words(&[0x0408_0004]).seen().shows(clear(0x1020_30ff)).end()
}

/// The words of the clear are payload.
fn largest_count() -> Stored {
    Scene::new("case-02-largest-count").words(&[0x1708_0003]).seen().shows(clear(0x1020_30ff)).end()
}

fn plate(depth: i32) -> Command {
    Command::flat([[40, 30, depth], [250, 60, depth], [90, 200, depth]], 0x00c0_8040, 255)
}

fn flags_4() -> Stored {
    let clear = Command::clear(4, 0x7080_90ff, 0);
    Scene::new("case-03-flags-4").shows(plate(10)).shows(clear).shows(plate(20)).end()
}

fn flags_7() -> Stored {
    let clear = Command::clear(7, 0x7080_90ff, 0);
    Scene::new("case-03-flags-7").shows(plate(10)).shows(clear).shows(plate(20)).end()
}

fn grey() -> Stored {
    Scene::new("case-04-grey").shows(clear(0x8080_80ff)).end()
}

fn channels() -> Stored {
    Scene::new("case-05-channels").shows(clear(0x01fe_01ff)).shows(clear(0xfe01_fe00)).end()
}

const SMALL: [[i32; 2]; 3] = [[0, 0], [4, 0], [0, 4]];

fn small(depths: [i32; 3], shade: u32) -> Command {
    Command::flat(std::array::from_fn(|i| [SMALL[i][0], SMALL[i][1], depths[i]]), 0x00ff_8001, shade)
}

fn fifteen_pixels() -> Stored {
    Scene::new("case-06-fifteen-pixels").shows(small([10; 3], 255)).end()
}

fn towards_zero() -> Stored {
    Scene::new("case-07-towards-zero").shows(small([0, 3, -3], 255)).end()
}

fn farthest() -> Stored {
    let far = small([i32::MAX; 3], 255);
    Scene::new("case-08-farthest").shows(far).shows(small([i32::MAX - 1; 3], 255)).end()
}

fn shade() -> Stored {
    let shaded =
        |depth: i32, shade| Command::flat([[0, 0, depth], [63, 0, depth], [0, 63, depth]], 0x80_8080, shade);
    Scene::new("case-09-shade").shows(shaded(3, 128)).shows(shaded(2, 300)).shows(shaded(1, 255)).end()
}

/// 8193 is outside the domain of the comparison: the original draws it, the port refuses it.
fn far_corners() -> Stored {
    let triangle =
        |far: i32, depth| Command::flat([[far, 0, depth], [160, far, 5], [10, 230, -far]], 0x0040_c0f0, 255);
    Scene::new("case-10-8192").shows(triangle(8192, 9)).shows(triangle(-8192, 3)).end()
}

fn one_texel() -> Stored {
    let triangle = [[-0.5, -0.5, 0.5], [0.5, -0.5, 0.5], [0.0, 0.5, 0.5]];
    let triangle = triangle.map(|position| corner(position, [0.0, 0.0, 1.0], [0.5, 0.5], 0));
    let draw = Command::textured(HELD, 0, &triangle);
    Scene::new("case-11-one-texel")
        .then(Command::texture(HELD, 1, 1, &[0xf0a5_1234]))
        .shows(draw.clone())
        .shows(plain_texture(0x5a0f))
        .then(clear(0))
        .shows(draw)
        .end()
}
