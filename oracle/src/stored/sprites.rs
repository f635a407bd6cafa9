//! Sprites refused by every check, one in each stream: a later refusal would no longer show in the status. Before it comes a
//! sprite that is just not refused, and after it one that shows that the machine goes on.

use super::scene::{clear, Scene, HELD};
use crate::replay::Stored;
use crate::streams::Command;

const SIDES: [u32; 2] = [5, 3];

/// Fifteen texels, some of alpha 0; the last low half is not used.
fn sheet() -> Command {
    let texels = [
        0xf00f_0f0f,
        0x00f0_ff0f,
        0x84c1_4440,
        0x123f_8888,
        0xcdef_fff2,
        0x0000_a5af,
        0x5a51_7770,
        0x999f_ffff,
    ];
    Command::texture(HELD, SIDES[0], SIDES[1], &texels)
}

fn at(target: [i32; 2]) -> Command {
    Command::sprite(HELD, [0, 0], SIDES, target)
}

fn part(source: [u32; 2], size: [u32; 2]) -> Command {
    Command::sprite(HELD, source, size, [20, 30])
}

fn of_length(count: usize) -> Command {
    let mut command = at([20, 30]);
    command.payload.resize(count, 1);
    command
}

/// A name, a sprite that is drawn and its neighbour that is refused.
fn neighbours() -> Vec<(&'static str, Command, Command)> {
    let of_number = |number| Command::sprite(number, [0, 0], SIDES, [20, 30]);
    vec![
        ("none", of_length(7), of_length(0)),
        ("short", of_length(7), of_length(6)),
        ("long", of_length(7), of_length(8)),
        ("number", of_number(HELD), of_number(HELD + 0x8000_0000)),
        ("width-0", part([1, 1], [1, 2]), part([1, 1], [0, 2])),
        ("height-0", part([1, 1], [2, 1]), part([1, 1], [2, 0])),
        ("right", part([3, 0], [2, 3]), part([4, 0], [2, 3])),
        ("lower", part([0, 1], [5, 2]), part([0, 2], [5, 2])),
        ("right-wraps", part([0, 0], [2, 3]), part([u32::MAX, 0], [2, 3])),
        ("lower-wraps", part([0, 0], [5, 2]), part([0, u32::MAX], [5, 2])),
        ("x-8193", at([8192, 30]), at([8193, 30])),
        ("x-minus-8193", at([-8192, 30]), at([-8193, 30])),
        ("y-8193", at([20, 8192]), at([20, 8193])),
        ("y-minus-8193", at([20, -8192]), at([20, -8193])),
    ]
}

pub fn refused() -> Vec<Stored> {
    let plate = || Command::flat([[0, 0, -5], [90, 10, -5], [15, 80, -5]], 0x0060_a0e0, 255);
    let stream = |(name, right, wrong)| {
        Scene::new(&format!("refused-10-{name}"))
            .all([clear(0x2030_40ff), plate(), sheet()])
            .shows(right)
            .shows(wrong)
            .shows(at([-2, 238]))
            .end()
    };
    neighbours().into_iter().map(stream).collect()
}
