//! Traps 8 to 10, 13 and 14: the dither's table, lengths that wrap, the status, the mode word, the order of checks.

use crate::floats::{identity, scale, singular};
use crate::random::Random;
use crate::replay::Stored;
use crate::stored::scene::{clear, draw, model, texture, wide, Scene, HELD};
use crate::streams::{Command, Triangle};

const NOT_HELD: u32 = 77;

pub fn traps() -> Vec<Stored> {
    let mut streams = vec![bayer(), wrapping_count(), status_kept(), mode_word_of_18(), mode_word_of_19()];
    streams
        .extend(two_wrongs().into_iter().map(|(name, settings, command)| refused(name, settings, command)));
    streams
}

/// Channels for which every one of the sixteen thresholds counts: a table read [x][y] gives another picture.
fn bayer() -> Stored {
    let plate = Command::flat([[3, 2, 7], [301, 40, 7], [77, 233, 7]], 0x00a5_5a33, 201);
    Scene::new("trap-08-bayer")
        .shows(clear(0x0184_feff))
        .shows(plate)
        .then(clear(0x4488_bb10))
        .shows(Command::transformed(&wide(0.5)))
        .end()
}

/// 28 times 40000001 is 28 in 32 bits: a port that wraps accepts this model, and draws it.
fn wrapping_count() -> Stored {
    let mut wrong = model(&[wide(0.5)]);
    wrong.payload[1] = 0x4000_0001;
    Scene::new("trap-09-28n-wraps").shows(texture()).shows(wrong).shows(Command::draw_model(HELD, 0)).end()
}

/// Bits stay through accepted commands, clears and empty calls: a port that begins a call or a command with status 0, or
/// that lets a clear reset it, differs.
fn status_kept() -> Stored {
    let unknown = Command { opcode: 0x03, payload: vec![1, 2, 3] };
    Scene::new("trap-10-status-kept")
        .seen()
        .shows(unknown)
        .seen()
        .shows(clear(0x1234_56ff))
        .shows(Command::transformed(&wide(0.5)))
        .words(&[0x0000_0003])
        .seen()
        .shows(Command::clear(7, 0x6543_21ff, 9))
        .seen()
        .end()
}

/// There are twenty words, and the second is the mode. Nineteen without it, as the source's comment says, are refused.
fn mode_word_of_18() -> Stored {
    mode_word("trap-13-18-mode-word", |mode| Command::textured(HELD, mode, &wide(0.5)))
}

fn mode_word_of_19() -> Stored {
    mode_word("trap-13-19-mode-word", |mode| Command::textured_lit(HELD, mode, &wide(0.5)))
}

fn mode_word(name: &str, draw: fn(u32) -> Command) -> Stored {
    let mut without = draw(0);
    without.payload.remove(1);
    let scene = Scene::new(name).then(texture());
    let scene = (0..3).fold(scene, |scene, mode| scene.then(clear(0x0000_00ff)).shows(draw(mode)));
    scene.then(clear(0x0000_00ff)).shows(without).end()
}

fn spoiled(opcode: u8, places: &[usize]) -> Command {
    let mut command = draw(opcode, 2, &wide(0.5)).remove(0);
    places.iter().for_each(|place| command.payload[*place] = f32::INFINITY.to_bits());
    command
}

/// Two things are wrong with each. Lines show only that each is refused and changes nothing else; which of the two is found
/// first will be seen with the reasons of request A3.
fn two_wrongs() -> Vec<(&'static str, Vec<Command>, Command)> {
    let flat = Command::matrix(1, &singular(&mut Random::new(14)));
    let huge = Command::matrix(2, &scale(f32::MAX));
    let doubled: Triangle = wide(0.5).map(|mut corner| {
        corner.position = corner.position.map(|part| 4.0 * part);
        corner
    });
    let mut huge_14 = Command::transformed(&doubled);
    huge_14.payload[9] = f32::NAN.to_bits();
    let mut huge_16 = Command::transformed_with_normals(&doubled);
    huge_16.payload[18] = f32::NAN.to_bits();
    vec![
        ("trap-14-18-mode-number", vec![], Command::textured(NOT_HELD, 3, &wide(0.5))),
        ("trap-14-19-mode-number", vec![flat.clone()], Command::textured_lit(NOT_HELD, 3, &wide(0.5))),
        ("trap-14-1b-mode-number", vec![], Command::draw_model(NOT_HELD, 3)),
        ("trap-14-16-matrix", vec![flat.clone()], spoiled(0x16, &[3])),
        ("trap-14-19-matrix", vec![flat], spoiled(0x19, &[2])),
        ("trap-14-14-inputs-first", vec![huge.clone()], huge_14),
        ("trap-14-16-inputs-first", vec![huge], huge_16),
        ("trap-14-18-infinite-y", vec![], spoiled(0x18, &[3, 5])),
        ("trap-14-17-2000-by-0", vec![], Command::texture(HELD, 2000, 0, &[])),
        ("trap-14-17-0-by-2000", vec![], Command::texture(HELD, 0, 2000, &[0xffff_ffff])),
        ("trap-14-1a-count-0", vec![], Command { opcode: 0x1a, payload: vec![HELD, 0, 5] }),
    ]
}

fn refused(name: &str, settings: Vec<Command>, command: Command) -> Stored {
    Scene::new(name)
        .then(texture())
        .then(model(&[wide(0.25)]))
        .all(settings)
        .seen()
        .shows(command)
        .all([Command::matrix(1, &identity()), Command::matrix(2, &identity())])
        .all([Command::textured(HELD, 0, &wide(0.5)), Command::draw_model(HELD, 0)])
        .seen()
        .end()
}
