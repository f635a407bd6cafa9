//! Every command refused for every reason it has, one in each stream: a later refusal would no longer show in the status.
//! Afterwards come draws of everything that is held, so that a refused setting or upload that was stored shows too.

use super::scene::{clear, draw, light, model, texture, wide, Scene, HELD};
use crate::floats::{diagonal, identity};
use crate::replay::Stored;
use crate::streams::{header, Command};

const NOT_HELD: u32 = 0x8000_0001;

pub fn refusals() -> Vec<Stored> {
    let mut streams: Vec<Stored> = lengths();
    let commands = out_of_range().into_iter().chain(not_finite()).chain(not_held());
    streams.extend(commands.map(|(name, command)| refused(&format!("refused-{name}"), &framed(&command))));
    streams.extend(unknown());
    streams.extend([singular("16"), singular("19"), singular("1b")]);
    streams.extend(records());
    streams
}

type Named = (&'static str, Command);

fn framed(command: &Command) -> Vec<u32> {
    [&[header(command.opcode, command.payload.len() as u32)], &command.payload[..]].concat()
}

fn settings() -> Vec<Command> {
    vec![texture(), model(&[wide(0.8125), wide(0.6875)]), light(2, [0.2, 0.6, 0.5, 0.1], [1.0, 2.0, 3.0])]
}

/// A draw of each kind; the later ones are nearer.
fn everything() -> Vec<Command> {
    let mut commands = vec![Command::flat([[5, 5, 9], [100, 15, 4], [20, 110, -7]], 0x0080_ff20, 200)];
    commands.push(Command::draw_model(HELD, 1));
    for (opcode, z) in [(0x14, 0.5), (0x16, 0.4375), (0x18, 0.375), (0x19, 0.3125)] {
        let mut triangle = wide(z);
        triangle[2].position[1] = 2.0 * z - 0.5;
        commands.extend(draw(opcode, 2, &triangle));
    }
    commands
}

fn refused(name: &str, words: &[u32]) -> Stored {
    Scene::new(name)
        .all(settings())
        .then(Command::lighting(1))
        .all(everything())
        .seen()
        .words(words)
        .seen()
        .then(clear(0x2030_40ff))
        .all(everything())
        .seen()
        .end()
}

/// One valid command of each kind, which would change what is drawn.
fn valid() -> Vec<Named> {
    let matrix = diagonal(0.5, 0.75, 1.0, 1.0);
    let mut commands: Vec<Named> = vec![
        ("01", Command::lighting(0)),
        ("02", Command::matrix(0, &matrix)),
        ("04", clear(0x9080_70ff)),
        ("12", Command::flat([[1, 1, -9], [200, 15, -9], [20, 110, -9]], 0x0020_ff80, 255)),
        ("15", light(2, [1.0; 4], [0.0; 3])),
        ("17", Command::texture(HELD, 2, 2, &[0x111f_222f, 0x333f_444f])),
        ("1a", model(&[wide(0.125)])),
        ("1b", Command::draw_model(HELD, 0)),
    ];
    for (name, opcode) in [("14", 0x14), ("16", 0x16), ("18", 0x18), ("19", 0x19)] {
        commands.push((name, draw(opcode, 0, &wide(0.125)).remove(0)));
    }
    commands
}

/// One word too few, one too many, none at all.
fn lengths() -> Vec<Stored> {
    let mut streams = Vec::new();
    for (name, command) in valid() {
        let (mut short, mut long, mut none) = (command.clone(), command.clone(), command);
        short.payload.pop();
        long.payload.push(0x3f80_0000);
        none.payload.clear();
        for (way, command) in [("short", short), ("long", long), ("none", none)] {
            streams.push(refused(&format!("refused-{name}-{way}"), &framed(&command)));
        }
    }
    streams
}

fn valid_command(name: &str) -> Command {
    let found = valid().into_iter().find(|(known, _)| *known == name);
    found.unwrap_or_else(|| panic!("no command {name}")).1
}

/// The valid command of this name with another word in one place.
fn changed(name: &str, place: usize, word: u32) -> Command {
    let mut command = valid_command(name);
    command.payload[place] = word;
    command
}

fn out_of_range() -> Vec<Named> {
    vec![
        ("01-which", changed("01", 0, 2)),
        ("01-shading", Command::shading_mode(2)),
        ("01-lighting", changed("01", 1, 2)),
        ("02-index", changed("02", 0, 3)),
        ("04-flags", changed("04", 0, 0x8000_0001)),
        ("15-index", changed("15", 0, 8)),
        ("15-switch", changed("15", 1, 2)),
        ("17-width-0", changed("17", 1, 0)),
        ("17-height-0", changed("17", 2, 0)),
        ("17-width-1025", Command::texture(HELD, 1025, 1, &[0x123f_456f; 513])),
        ("17-height-1025", Command::texture(HELD, 1, 1025, &[0x123f_456f; 513])),
        ("17-too-wide", changed("17", 1, 3)),
        ("18-mode", changed("18", 1, 3)),
        ("19-mode", changed("19", 1, u32::MAX)),
        ("1a-count-0", changed("1a", 1, 0)),
        ("1a-count-2", changed("1a", 1, 2)),
        ("1b-mode", changed("1b", 1, 3)),
    ]
}

/// A word that is tested and is not finite: for most commands the last one, so that the others have been taken.
fn not_finite() -> Vec<Named> {
    let (nan, infinity) = (0x7fc1_2345, 0xff80_0000);
    vec![
        ("02-nan", changed("02", 16, nan)),
        ("02-infinite", changed("02", 1, infinity)),
        ("15-nan", changed("15", 16, nan)),
        ("15-infinite", changed("15", 2, infinity)),
        ("14-position", changed("14", 10, infinity)),
        ("16-position", changed("16", 16, nan)),
        ("16-normal", changed("16", 19, infinity)),
        ("18-position", changed("18", 15, infinity)),
        ("18-uv", changed("18", 18, nan)),
        ("19-position", changed("19", 22, infinity)),
        ("19-normal", changed("19", 25, nan)),
        ("19-uv", changed("19", 27, infinity)),
    ]
}

fn not_held() -> Vec<Named> {
    vec![
        ("18-number", changed("18", 0, NOT_HELD)),
        ("19-number", changed("19", 0, NOT_HELD)),
        ("1b-number", changed("1b", 0, NOT_HELD)),
    ]
}

/// Opcodes without a command, with and without words; 10, which has one, with a length that it does not take; opcode 0;
/// counts above 524,291.
fn unknown() -> Vec<Stored> {
    let mut streams = Vec::new();
    for opcode in [0x03, 0x10, 0x11, 0x13, 0x1c, 0x7f, 0x92, 0xff] {
        streams.push(refused(&format!("refused-opcode-{opcode:02x}"), &[header(opcode, 2), HELD, 0]));
    }
    streams.push(refused("refused-opcode-20-none", &[header(0x20, 0)]));
    streams.push(refused("refused-zero", &[0x0000_0000]));
    streams.push(refused("refused-zero-oversized", &[0x00ff_ffff]));
    streams.push(refused("refused-oversized", &[header(0x17, 524_292)]));
    streams.push(refused("refused-oversized-most", &[header(0x04, 0xff_ffff)]));
    streams
}

/// A model-view that cannot be inverted.
fn singular(name: &str) -> Stored {
    let words = [
        Command::matrix(1, &diagonal(1.0, 0.0, 1.0, 1.0)),
        valid_command(name),
        Command::matrix(1, &identity()),
    ];
    refused(&format!("refused-{name}-matrix"), &words.iter().flat_map(framed).collect::<Vec<u32>>())
}

/// The first, the middle or the last of three records is refused; the other two are drawn.
fn records() -> Vec<Stored> {
    let triangles = [0.125, 0.25, 0.375].map(wide);
    let mut streams = Vec::new();
    for (record, name) in ["first", "second", "third"].iter().enumerate() {
        for (reason, place, word) in [("number", 0, NOT_HELD), ("nan", 1, 0x7fc0_0000)] {
            let mut upload = model(&triangles);
            upload.payload[2 + 28 * record + place] = word;
            let words = [framed(&upload), framed(&Command::draw_model(HELD, 2))].concat();
            streams.push(refused(&format!("refused-1b-{name}-{reason}"), &words));
        }
    }
    streams
}
