//! Damaged commands and damaged framing.

use crate::damage;
use crate::maker::Maker;
use crate::streams::{header, Command};

pub fn damaged(maker: &mut Maker) {
    if maker.random.chance(12) {
        wrong_upload(maker);
    } else {
        let valid = damage::any_command(maker);
        let command = damage::damaged(valid, &mut maker.random);
        maker.send(command);
    }
    if maker.random.chance(30) {
        maker.any_camera();
    }
    maker.send_draws(2);
    if maker.random.chance(30) {
        maker.refresh();
    }
}

/// A draw after it shows whether the upload was kept.
fn wrong_upload(maker: &mut Maker) {
    let triangle = maker.triangle_of_size(0.5);
    let (upload, draw) = if maker.random.chance(50) {
        (damage::wrong_texture(maker), Command::textured(damage::DAMAGED_NUMBER, 0, &triangle))
    } else {
        (damage::wrong_model(maker), Command::draw_model(damage::DAMAGED_NUMBER, 0))
    };
    maker.send(upload);
    maker.send(draw);
}

pub fn framing(maker: &mut Maker) {
    let opcode = match maker.random.below(3) {
        0 => damage::unknown_opcode(&mut maker.random),
        1 => 1 + maker.random.below(255) as u8,
        _ => maker.random.pick(&[0x01, 0x02, 0x04, 0x12, 0x14, 0x15, 0x16, 0x17, 0x18, 0x19, 0x1a, 0x1b]),
    };
    let count = maker.random.pick(&[524_292, 524_293, 0x80_0000, 0xff_ffff]);
    let zero_opcode = maker.random.word() & 0x00ff_ffff;
    match maker.random.below(4) {
        0 => maker.stream.send_header(zero_opcode),
        1 => maker.stream.send_header(header(opcode, 0)),
        2 => maker.stream.send_header(header(opcode, count)),
        _ => {
            let payload = (0..maker.random.below(5)).map(|_| maker.random.word()).collect();
            maker.send(Command { opcode, payload });
        }
    }
    maker.send_draws(2);
    if maker.random.chance(30) {
        maker.refresh();
    }
}

/// Short commands of every kind.
pub fn cuts(maker: &mut Maker) {
    let command = damage::any_command(maker);
    maker.send(command);
    if maker.random.chance(10) {
        maker.stream.send_header(5);
    }
    if maker.random.chance(15) {
        maker.any_camera();
        maker.refresh();
    }
}

/// The stream ends inside a payload, or a count is not that of its payload.
pub fn broken_end(maker: &mut Maker) {
    let Command { opcode, payload } = maker.any_draw();
    let count = payload.len() as u32;
    match maker.random.below(4) {
        0 => maker.stream.send_header(header(0x17, 524_291)),
        1 => {
            let wrong = maker.random.pick(&[count - 1, count + 1, count + 3]);
            maker.stream.send_header(header(opcode, wrong));
            maker.stream.words.extend(payload);
            maker.send_draws(2);
        }
        _ => {
            maker.send(Command { opcode, payload });
            let missing = 1 + maker.random.below(count) as usize;
            maker.stream.cut_short(missing);
        }
    }
}
