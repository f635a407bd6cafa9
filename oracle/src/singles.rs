//! Single draws under random settings: what comes before a draw, and the draw.

mod sprites;

pub use sprites::{families, largest_upload, Family, Meant};

use crate::maker::Maker;
use crate::random::Random;
use crate::steps;
use crate::streams::{Command, Stream};

pub const KINDS: [u8; 8] = [0x10, 0x12, 0x14, 0x16, 0x18, 0x19, 0x1b, 0x04];

pub struct Single {
    pub settings: Vec<u32>,
    pub opcode: u8,
    pub draw: Vec<u32>,
    /// A sprite's family.
    pub family: Option<usize>,
}

/// The single draw of this index: the kinds take turns, and so do the families of sprites.
pub fn single(kinds: &[u8], families: &[Family], seed: u64, index: u64) -> Single {
    let mut maker = Maker::new(Random::named("single", seed, index));
    let (turn, place) = (index / kinds.len() as u64, index % kinds.len() as u64);
    let opcode = kinds[place as usize];
    let family = (opcode == 0x10).then(|| sprites::family_of(families, turn));
    settings(&mut maker);
    let draw = match family {
        Some(family) => sprites::draw(&mut maker, &families[family]),
        None => draw(&mut maker, opcode),
    };
    let mut stream = Stream::default();
    stream.send(&draw);
    Single { settings: maker.stream.words, opcode, draw: stream.words, family }
}

fn settings(maker: &mut Maker) {
    let (shading, lighting) = (maker.random.below(2), maker.random.below(2));
    maker.send(Command::shading_mode(shading));
    maker.send(Command::lighting(lighting));
    for _ in 0..maker.random.below(4) {
        let light = maker.light();
        maker.send(light);
    }
    if maker.random.chance(70) {
        maker.any_camera();
    } else {
        steps::unusual_matrices(maker);
    }
    let number = maker.random.below(8);
    maker.upload_small_texture(number);
}

fn draw(maker: &mut Maker, opcode: u8) -> Command {
    let size = maker.random.pick(&[0.02, 0.1, 0.3, 0.6, 1.0]);
    let triangle = maker.triangle_of_size(size);
    let mode = maker.mode();
    match opcode {
        0x12 => maker.flat_around(60),
        0x14 => Command::transformed(&triangle),
        0x16 => Command::transformed_with_normals(&triangle),
        0x18 => Command::textured(maker.held_texture(), mode, &triangle),
        0x19 => Command::textured_lit(maker.held_texture(), mode, &triangle),
        0x1b => Command::draw_model(maker.held_model(), mode),
        _ => Command::clear(maker.random.below(8), maker.colour(), maker.random.word()),
    }
}
