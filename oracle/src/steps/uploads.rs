//! Textures and models: sent, sent again, drawn, and their numbers.

use crate::floats;
use crate::maker::{Camera, Maker};
use crate::streams::{Command, Triangle};

/// Models of a few triangles, some with a record that is refused, drawn and sent again.
pub fn models(maker: &mut Maker) {
    if maker.random.chance(30) {
        maker.any_setting();
    }
    if maker.random.chance(40) {
        let (number, triangles) = (maker.random.below(6), 1 + maker.random.below(8));
        let mut command = maker.model(number, triangles);
        if maker.random.chance(30) {
            spoil_record(maker, &mut command);
        }
        maker.send(command);
        if !maker.models.contains(&number) {
            maker.models.push(number);
        }
    }
    let command = Command::draw_model(maker.held_model(), maker.mode());
    maker.send(command);
    if maker.random.chance(30) {
        maker.refresh();
    }
}

/// A texture number that nobody holds, or a position that is not finite.
fn spoil_record(maker: &mut Maker, model: &mut Command) {
    let record = 2 + 28 * maker.random.below((model.payload.len() as u32 - 2) / 28) as usize;
    if maker.random.chance(50) {
        model.payload[record] = 0xdead_0000;
    } else {
        model.payload[record + 1] = floats::not_finite(&mut maker.random).to_bits();
    }
}

pub fn uploads(maker: &mut Maker) {
    let number = maker.random.below(5);
    let (width, height) =
        maker.random.pick(&[(1, 1), (1, 2), (3, 3), (16, 16), (7, 31), (64, 1), (1, 1024), (1024, 1)]);
    maker.upload_texture(number, width, height);
    if maker.random.chance(20) {
        let (model, triangles) = (maker.random.below(5), 1 + maker.random.below(4));
        maker.upload_model(model, triangles);
    }
    if maker.random.chance(25) {
        maker.refresh();
    }
    let triangle = maker.triangle_of_size(0.7);
    let command = Command::textured_lit(number, maker.random.below(2), &triangle);
    maker.send(command);
    maker.send_draws(1);
}

/// Numbers that agree in their low bits, in their high bits, or in both ends.
const ALIKE: [[u32; 6]; 4] = [
    [1, 0x8000_0001, 0x0001_0001, 0x0100_0001, 0x0000_0101, 0x0000_0041],
    [5, 0x0001_0005, 0x4000_0005, 0xffff_0005, 0x8000_0005, 0x0000_0045],
    [0, 0x8000_0000, 0x0001_0000, 0x0000_0100, 0x0000_0040, 0xffff_ffff],
    [0xabcd_0000, 0xabcd_0001, 0xabcd_8000, 0xabcd_0040, 0xab00_0000, 0xabcd_ffff],
];

/// Mostly the family of the first texture held, so that numbers that look alike are held together.
fn family(maker: &mut Maker) -> [u32; 6] {
    let any = maker.random.pick(&ALIKE);
    let first = maker.textures.first().and_then(|held| ALIKE.iter().find(|family| family.contains(held)));
    match first {
        Some(family) if maker.random.chance(75) => *family,
        _ => any,
    }
}

pub fn numbers(maker: &mut Maker) {
    let family = family(maker);
    let number = maker.random.pick(&family);
    match maker.random.below(3) {
        0 => maker.upload_small_texture(number),
        1 => maker.upload_model(number, 2),
        _ => {}
    }
    let triangle = maker.triangle_of_size(0.5);
    let asked = if maker.random.chance(15) { maker.random.pick(&family) } else { maker.held_texture() };
    let command = Command::textured(asked, maker.mode(), &triangle);
    maker.send(command);
    let asked = if maker.random.chance(15) { maker.random.pick(&family) } else { maker.held_model() };
    let command = Command::draw_model(asked, maker.mode());
    maker.send(command);
    if maker.random.chance(40) {
        maker.refresh();
    }
}

/// A texture and a model of many small triangles, drawn in each mode.
fn large_uploads(maker: &mut Maker, width: u32, height: u32, triangles: u32) {
    maker.set_camera(Camera::Orthographic);
    maker.upload_texture(1, width, height);
    let records: Vec<(u32, Triangle)> = (0..triangles).map(|_| (1, maker.triangle_of_size(0.02))).collect();
    maker.send(Command::model(2, &records));
    for mode in 0..3 {
        maker.refresh();
        maker.send(Command::draw_model(2, mode));
        let triangle = maker.triangle_of_size(1.0);
        maker.send(Command::textured(1, mode, &triangle));
    }
}

/// The largest texture and the largest model that one command can carry.
pub fn largest(maker: &mut Maker) {
    large_uploads(maker, 1024, 1024, 18_724);
}

pub fn large(maker: &mut Maker) {
    large_uploads(maker, 256, 200, 700);
}

fn upload_and_draw(maker: &mut Maker, number: u32) {
    maker.upload_texture(number, 1 + number % 3, 2);
    maker.upload_model(number, 1);
    let triangle = maker.triangle_of_size(0.3);
    maker.send(Command::textured(number, 0, &triangle));
    if number % 8 == 0 {
        maker.refresh();
    }
}

/// More than 64 numbers of each kind are held at the end.
pub fn crowded(maker: &mut Maker) {
    (0..70).for_each(|number| upload_and_draw(maker, number));
}

/// No 65th number is asked for, but some come again.
pub fn full(maker: &mut Maker) {
    (0..64).for_each(|number| upload_and_draw(maker, number));
    for _ in 0..12 {
        let number = maker.random.below(64);
        maker.upload_small_texture(number);
        maker.upload_model(63 - number, 2);
        maker.refresh();
        let triangle = maker.triangle_of_size(0.3);
        maker.send(Command::textured_lit(number, 1, &triangle));
        maker.send(Command::draw_model(63 - number, 2));
        maker.send_draws(2);
    }
}
