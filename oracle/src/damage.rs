//! Commands that are wrong in one place.

use crate::floats;
use crate::maker::Maker;
use crate::random::Random;
use crate::streams::{Command, Stream};

/// Values at and beyond the ends of the ranges that the commands test.
const BOUNDARIES: [u32; 12] = [0, 1, 2, 3, 7, 8, 9, 1025, 0x4000_0001, 0x7fff_ffff, 0x8000_0000, 0xffff_ffff];

/// Opcodes that no command has, and 10, which is that of sprites. It stays in the list so that streams keep their bytes;
/// what is sent under it here never has the seven words of a sprite, and is refused.
const UNKNOWN_OPCODES: [u8; 12] = [0x03, 0x05, 0x0f, 0x10, 0x11, 0x13, 0x1c, 0x20, 0x7f, 0x80, 0x92, 0xff];

/// A valid command of any kind. Flat coordinates stay on or near the screen.
pub fn any_command(maker: &mut Maker) -> Command {
    match maker.random.below(12) {
        0 => Command::clear(maker.random.below(4), maker.colour(), 0),
        1 => Command::shading_mode(maker.random.below(2)),
        2 => Command::lighting(maker.random.below(2)),
        3 => Command::matrix(maker.random.below(3), &floats::rotation(&mut maker.random)),
        4 => maker.light(),
        5 => maker.texture(DAMAGED_NUMBER, 3, 3),
        6 => maker.model(DAMAGED_NUMBER, 2),
        _ => maker.any_draw(),
    }
}

/// The result is still framed as its count says.
pub fn damaged(command: Command, random: &mut Random) -> Command {
    let Command { mut opcode, mut payload } = command;
    let last = payload.len().saturating_sub(1);
    let place = random.below(payload.len() as u32) as usize;
    match random.below(8) {
        0 => payload.truncate(last),
        1 => payload.push(random.word()),
        2 => payload.truncate(random.below(last as u32 + 1) as usize),
        3 => payload[place] = floats::not_finite(random).to_bits(),
        4 => payload[place] = floats::special(random).to_bits(),
        5 => payload[place.min(2)] = random.pick(&BOUNDARIES),
        6 => payload[place.min(1)] = random.word(),
        _ => opcode = random.pick(&UNKNOWN_OPCODES),
    }
    Command { opcode, payload: inside_flat_domain(opcode, payload) }
}

/// A damaged flat triangle keeps coordinates that the port accepts; the profile `flat-beyond` has the others.
fn inside_flat_domain(opcode: u8, mut payload: Vec<u32>) -> Vec<u32> {
    if opcode == 0x12 && payload.len() == 11 {
        for place in [0, 1, 3, 4, 6, 7] {
            payload[place] = (payload[place] as i32).clamp(-8192, 8192) as u32;
        }
    }
    payload
}

/// The number of every upload that is made to be damaged; nothing valid is left under it for long.
pub const DAMAGED_NUMBER: u32 = 9;

/// A texture whose sides are wrong, or right only after wrapping around.
pub fn wrong_texture(maker: &mut Maker) -> Command {
    let sides: [[u32; 2]; 7] =
        [[0, 3], [3, 0], [2000, 0], [1025, 1], [0x10000, 0x10000], [0x8000_0002, 3], [u32::MAX, u32::MAX]];
    let mut command = maker.texture(DAMAGED_NUMBER, 2, 3);
    command.payload[1..3].copy_from_slice(&maker.random.pick(&sides));
    if maker.random.chance(30) {
        command.payload.truncate(3);
    }
    command
}

/// A model whose count is wrong; 28 times 40000001 is 28 in 32 bits.
pub fn wrong_model(maker: &mut Maker) -> Command {
    let mut command = maker.model(DAMAGED_NUMBER, 1);
    command.payload[1] = maker.random.pick(&[0, 2, 0x4000_0001, 0x4000_0001, 0xc000_0001, u32::MAX]);
    command
}

pub fn unknown_opcode(random: &mut Random) -> u8 {
    random.pick(&UNKNOWN_OPCODES)
}

/// Up to three words anywhere are lost, inserted or changed; what follows may then be framed differently.
pub fn spoil(stream: &mut Stream, random: &mut Random) {
    for _ in 0..1 + random.below(3) {
        let place = random.below(stream.words.len() as u32) as usize;
        match random.below(4) {
            0 if stream.words.len() > 1 => _ = stream.words.remove(place),
            1 => stream.words.insert(place, random.word()),
            2 => stream.words[place] = random.word(),
            _ => stream.words[place] ^= 1 << random.below(32),
        }
    }
}

/// From some command on, one of the matrices has no inverse or makes positions overflow.
pub fn odd_matrix(stream: &mut Stream, random: &mut Random) {
    let matrix = if random.chance(50) { floats::singular(random) } else { floats::scale(f32::MAX) };
    let command = Command::matrix(random.below(3), &matrix);
    let place = random.below(stream.headers.len() as u32) as usize;
    stream.insert(place, &command);
}
