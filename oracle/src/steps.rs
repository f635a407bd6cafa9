//! One function for each profile: it adds a few commands on the profile's subject to the stream.

mod faults;
mod flat;
mod odd_floats;
mod resend;
mod sprites;
mod triangles;
mod uploads;

pub use faults::{broken_end, cuts, damaged, framing};
pub use flat::{flat, flat_beyond, flat_sides};
pub use odd_floats::{extremes, specials, NAN_DEPTH};
pub use resend::{overfull, resend, ROOM};
pub use sprites::sprites;
pub use triangles::{clipping, matrices, textured, transformed, unusual_matrices};
pub use uploads::{crowded, full, large, largest, models, numbers, uploads};

use crate::maker::Maker;
use crate::streams::Command;

pub fn clears(maker: &mut Maker) {
    maker.send_draws(2);
    let flags = match maker.random.below(4) {
        0 => maker.random.below(8),
        1 => 1 << maker.random.below(32),
        2 => maker.random.word(),
        _ => maker.random.below(4),
    };
    let command = Command::clear(flags, maker.colour(), maker.random.word());
    maker.send(command);
}

pub fn settings(maker: &mut Maker) {
    maker.any_setting();
    let draws = 1 + maker.random.below(2);
    maker.send_draws(draws);
    if maker.random.chance(25) {
        let command = Command { opcode: 0x01, payload: vec![maker.random.below(4), maker.random.below(4)] };
        maker.send(command);
    }
    if maker.random.chance(20) {
        maker.refresh();
    }
}

/// A step of any profile that stays inside the domain and is not too long.
pub fn mixed(maker: &mut Maker) {
    const STEPS: [fn(&mut Maker); 15] = [
        clears,
        settings,
        flat,
        flat_sides,
        transformed,
        textured,
        models,
        uploads,
        numbers,
        clipping,
        matrices,
        specials,
        extremes,
        damaged,
        framing,
    ];
    maker.random.pick(&STEPS)(maker);
}
