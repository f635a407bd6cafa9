//! Sprites, and textured triangles that cover the same pixels with the same texture.

use crate::overlay::rectangle;
use crate::works::{texture, words_of, Work};
use vpu_oracle::original::Vpu;
use vpu_oracle::random::Random;
use vpu_oracle::sprites::{Alpha, Sheet};
use vpu_oracle::streams::Command;

/// Sprites of a work.
const DRAWS: i32 = 100;

const SIDES: [i32; 5] = [8, 32, 64, 128, 240];
const MIDDLE: i32 = SIDES[2];

type Place = [i32; 2];

fn anywhere(side: i32, index: i32) -> Place {
    let random = &mut Random::named("timed sprite", side as u64, index as u64);
    [random.between(0, 320 - side), random.between(0, 240 - side)]
}

/// Over each edge of the plane in turn, with so many columns or rows on it.
fn over_an_edge(side: i32, index: i32, on: i32) -> Place {
    let [x, y] = anywhere(side, index);
    [[on - side, y], [320 - on, y], [x, on - side], [x, 240 - on]][index as usize % 4]
}

fn size(side: i32) -> String {
    format!("{side} by {side}")
}

/// Sprites of a whole texture, each at its place. The time is for a pixel; each sprite has so many on the plane.
fn sprites(name: &str, texture: Command, side: i32, pixels: i32, place: impl Fn(i32) -> Place) -> Work {
    let draw = |index| Command::sprite(1, [0, 0], [side as u32; 2], place(index));
    let draws: Vec<Command> = (0..DRAWS).map(draw).collect();
    let work = Work::new(name, "pixel", (DRAWS * pixels) as usize, words_of(&draws));
    Work { sprites: true, ..work.after(words_of(&[texture])) }
}

fn opaque(side: i32) -> Command {
    texture(1, side as u32, side as u32)
}

fn with_alphas(side: i32, alpha: Alpha) -> Command {
    let sheet = Sheet { number: 1, sides: [side as u32; 2] };
    sheet.upload(alpha, &mut Random::named("timed alphas", 1, 0))
}

fn on_the_plane(side: i32) -> Work {
    let name = format!("10, {}", size(side));
    sprites(&name, opaque(side), side, side * side, |index| anywhere(side, index))
}

/// The same for a sprite.
pub fn for_a_sprite() -> Work {
    Work { unit: "sprite", count: DRAWS as usize, ..on_the_plane(MIDDLE) }
}

/// Two triangles over the same pixels as the sprite, nearer than those before. A quarter of a pixel is left out at the left and
/// below, so that the diagonal between the two meets no pixel's middle.
fn two_triangles(side: i32, index: i32) -> [Command; 2] {
    let [left, top] = anywhere(side, index).map(|place| place as f32);
    let (right, bottom) = (left + side as f32, top + side as f32);
    let z = 0.99 - index as f32 / (1.1 * DRAWS as f32);
    rectangle([left + 0.25, top, right, bottom - 0.25], z, [0xffff_ffff; 2])
        .map(|triangle| Command::textured(1, 0, &triangle))
}

/// How many pixels the original draws.
fn covered(vpu: &mut Vpu, draws: &[Command]) -> usize {
    vpu.feed(&words_of(&[Command::clear(2, 0, 0)]));
    vpu.feed(&words_of(draws));
    vpu.depth_f32().iter().filter(|depth| **depth < 1.0).count()
}

fn triangles_beside(side: i32) -> Result<Work, String> {
    let (texture, pixels) = (words_of(&[opaque(side)]), (side * side) as usize);
    let pairs: Vec<[Command; 2]> = (0..DRAWS).map(|index| two_triangles(side, index)).collect();
    let mut vpu = Vpu::new();
    vpu.feed(&texture);
    let name = format!("18, mode 0, two triangles in place of 10, {}", size(side));
    match pairs.iter().map(|pair| covered(&mut vpu, pair)).find(|count| *count != pixels) {
        Some(count) => Err(format!("{name}: {count} pixels are covered")),
        None => {
            let work = Work::new(&name, "pixel", DRAWS as usize * pixels, words_of(&pairs.concat()));
            Ok(work.on_empty_depths().after(texture))
        }
    }
}

fn partly_on_the_plane() -> Vec<Work> {
    let (side, name) = (MIDDLE, format!("10, {}", size(MIDDLE)));
    let (quarter, off) = (format!("{name}, a quarter on the plane"), format!("{name}, off the plane"));
    let off = sprites(&off, opaque(side), side, 0, |index| over_an_edge(side, index, 0));
    vec![
        sprites(&quarter, opaque(side), side, side * side / 4, |index| over_an_edge(side, index, side / 4)),
        Work { unit: "sprite", count: DRAWS as usize, unseen: true, ..off },
    ]
}

fn partly_clear() -> Vec<Work> {
    let (side, name) = (MIDDLE, format!("10, {}", size(MIDDLE)));
    let of = |about: &str, alpha| {
        let name = format!("{name}, {about}");
        sprites(&name, with_alphas(side, alpha), side, side * side, |index| anywhere(side, index))
    };
    let (mixed, clear) = (of("a third of alpha 0", Alpha::Mixed), of("all of alpha 0", Alpha::Clear));
    vec![mixed, Work { unseen: true, ..clear }]
}

/// The rows of the third table.
pub fn all() -> Result<Vec<Work>, String> {
    let mut works = Vec::new();
    for side in SIDES {
        works.extend([on_the_plane(side), triangles_beside(side)?]);
    }
    works.extend(partly_on_the_plane());
    works.extend(partly_clear());
    Ok(works)
}
