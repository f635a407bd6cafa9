//! What is timed: words that both sides are fed.

use crate::overlay::overlay;
use crate::sprites;
use vpu_oracle::floats;
use vpu_oracle::maker::{Camera, Maker};
use vpu_oracle::random::Random;
use vpu_oracle::streams::{Command, Corner, Stream, Triangle};
use vpu_oracle::words::read_words;

pub struct Work {
    pub name: String,
    /// The unit that a time is given for, and how many of them the words have.
    pub unit: &'static str,
    pub count: usize,
    /// Fed once, and fed before each round; neither is timed.
    pub before: Vec<u32>,
    pub each: Vec<u32>,
    pub words: Vec<u32>,
    /// Words of a call; if a round has no more, it is one call.
    pub per_call: usize,
    /// The status at the end.
    pub status: u32,
    /// Whether it has sprites, and whether its draws change no pixel though none is refused.
    pub sprites: bool,
    pub unseen: bool,
}

pub fn words_of(commands: &[Command]) -> Vec<u32> {
    let mut stream = Stream::default();
    commands.iter().for_each(|command| stream.send(command));
    stream.words
}

impl Work {
    pub fn new(name: &str, unit: &'static str, count: usize, words: Vec<u32>) -> Self {
        Self {
            name: name.to_string(),
            unit,
            count,
            before: Vec::new(),
            each: Vec::new(),
            words,
            per_call: usize::MAX,
            status: 0,
            sprites: false,
            unseen: false,
        }
    }

    pub fn after(self, before: Vec<u32>) -> Self {
        Self { before, ..self }
    }

    /// With empty depths before each round, so that each draws as much.
    pub fn on_empty_depths(self) -> Self {
        Self { each: words_of(&[Command::clear(2, 0, 0)]), ..self }
    }

    fn of_draws(name: &str, draws: &[Command]) -> Self {
        Self::new(name, "triangle", draws.len(), words_of(draws)).on_empty_depths()
    }

    /// The name of a file.
    pub fn file(&self) -> String {
        let plain = |letter: char| if letter.is_ascii_alphanumeric() { letter } else { '-' };
        format!("{}.words", self.name.chars().map(plain).collect::<String>())
    }
}

/// Width and height of the box around a triangle.
pub type Frame = (i32, i32);

const BOXES: [Frame; 3] = [(225, 170), (50, 40), (10, 6)];
const MIDDLE: Frame = BOXES[1];

/// Boxes that grow about fourfold.
const GROWING: [Frame; 5] = [(10, 6), (20, 12), (40, 24), (80, 50), (160, 100)];

fn size((width, height): Frame) -> String {
    format!("box of {} pixels", thousands((width * height) as usize))
}

/// Triangles of a work.
const DRAWS: i32 = 100;

/// A triangle that fills half its box, anywhere on the screen; `shift` moves it off the screen.
fn corners((width, height): Frame, index: i32, shift: [i32; 2]) -> [[i32; 2]; 3] {
    let random = &mut Random::named("timed", width as u64, index as u64);
    let (x, y) = (random.between(0, 319 - width) + shift[0], random.between(0, 239 - height) + shift[1]);
    let (across, down) = (random.between(0, width), random.between(0, height));
    [[x, y], [x + width, y + down], [x + across, y + height]]
}

/// Flat triangles, each nearer than those before it.
fn flat(frame: Frame) -> Vec<Command> {
    let draw = |index| {
        let depths = [0, 1, 2].map(|place| place - 10 * index);
        let corners = corners(frame, index, [0, 0]);
        let corners = std::array::from_fn(|i| [corners[i][0], corners[i][1], depths[i]]);
        Command::flat(corners, 0x1357_9bdf_u32.wrapping_mul(index as u32 + 1), 200)
    };
    (0..DRAWS).map(draw).collect()
}

/// A corner at a place of the screen, facing the eye.
pub fn corner([x, y]: [f32; 2], z: f32, uv: [f32; 2], rgba: u32) -> Corner {
    Corner { position: [x / 160.0 - 1.0, 1.0 - y / 120.0, z], normal: [0.0, 0.0, 1.0], uv, rgba }
}

fn triangle(places: [[i32; 2]; 3], index: i32) -> Triangle {
    let random = &mut Random::named("corners", 1, index as u64);
    places.map(|place| {
        let z = 0.99 - index as f32 / (1.1 * DRAWS as f32);
        let mut corner = corner(place.map(|n| n as f32), z, random.floats(0.0, 1.0), random.word() | 0xff);
        corner.normal = random.floats(-1.0, 1.0);
        corner
    })
}

type Draw = fn(u32, &Triangle) -> Command;

const TRANSFORMED: [(&str, Draw); 2] = [
    ("14", |_, triangle| Command::transformed(triangle)),
    ("16", |_, triangle| Command::transformed_with_normals(triangle)),
];
const TEXTURED: [(&str, Draw); 2] = [
    ("18", |mode, triangle| Command::textured(1, mode, triangle)),
    ("19", |mode, triangle| Command::textured_lit(1, mode, triangle)),
];

fn drawn(draw: Draw, mode: u32, frame: Frame, shift: fn(i32) -> [i32; 2]) -> Vec<Command> {
    let command = |index| draw(mode, &triangle(corners(frame, index, shift(index)), index));
    (0..DRAWS).map(command).collect()
}

fn inside(_: i32) -> [i32; 2] {
    [0, 0]
}

/// Over the left or the right side, the upper or the lower one, in turn.
fn crossing(index: i32) -> [i32; 2] {
    [[-110, 0], [110, 0], [0, -90], [0, 90]][index as usize % 4]
}

pub fn texture(number: u32, width: u32, height: u32) -> Command {
    Maker::new(Random::named("timed texture", 1, number as u64)).texture(number, width, height)
}

/// Shading mode, lighting, two lights, and a texture of 64 by 64 under the number 1.
fn settings(shading: u32, lighting: u32) -> Vec<u32> {
    let light = |index: u32| {
        let terms =
            std::array::from_fn(|i| if i < 12 { 0.2 } else { (i as f32 - 13.0) * (2.0 - index as f32) });
        Command::light(index, 1, &terms)
    };
    let settings = [Command::shading_mode(shading), Command::lighting(lighting), light(0), light(1)];
    words_of(&[&settings[..], &[texture(1, 64, 64)]].concat())
}

const LIT: [&str; 2] = ["unlit", "lit"];

fn float_draws() -> Vec<Work> {
    let mut works = Vec::new();
    for (name, draw) in TRANSFORMED {
        for (shading, lighting) in [(0, 0), (0, 1), (1, 0), (1, 1)] {
            let name = format!("{name}, shading {shading}, {}", LIT[lighting as usize]);
            let draws = drawn(draw, 0, MIDDLE, inside);
            works.push(Work::of_draws(&name, &draws).after(settings(shading, lighting)));
        }
    }
    for (name, draw) in TEXTURED {
        for (mode, lighting) in [(0, 0), (0, 1), (1, 0), (1, 1), (2, 0), (2, 1)] {
            let name = format!("{name}, mode {mode}, {}", LIT[lighting as usize]);
            let draws = drawn(draw, mode, MIDDLE, inside);
            works.push(Work::of_draws(&name, &draws).after(settings(0, lighting)));
        }
    }
    works
}

fn crossing_draws() -> Vec<Work> {
    let of = |name: &str, draw, mode, shading, lighting| {
        let name = format!("{name}, across a side of the view, {}", size(BOXES[0]));
        let draws = drawn(draw, mode, BOXES[0], crossing);
        Work::of_draws(&name, &draws).after(settings(shading, lighting))
    };
    vec![of("14, shading 1", TRANSFORMED[0].1, 0, 1, 0), of("19, mode 2, lit", TEXTURED[1].1, 2, 0, 1)]
}

/// Triangles of a model, all under one texture's number.
fn records(texture: u32, triangles: usize) -> Vec<(u32, Triangle)> {
    let mut maker = Maker::new(Random::named("timed model", 1, 0));
    maker.set_camera(Camera::Orthographic);
    (0..triangles).map(|_| (texture, maker.triangle_of_size(0.05))).collect()
}

fn model(number: u32, triangles: usize) -> Command {
    Command::model(number, &records(1, triangles))
}

/// A model of small triangles, drawn in mode 2 under two lights.
fn model_draw(triangles: usize) -> Work {
    let matrices = [floats::identity(), floats::identity(), floats::orthographic()];
    let mut before: Vec<Command> =
        (0..3).map(|index| Command::matrix(index, &matrices[index as usize])).collect();
    before.push(model(1, triangles));
    let draw = words_of(&[Command::draw_model(1, 2)]);
    Work::new(&format!("1B, mode 2, lit, {} triangles", thousands(triangles)), "triangle", triangles, draw)
        .on_empty_depths()
        .after([settings(0, 1), words_of(&before)].concat())
}

/// A work whose draws are all refused, with the texture 1 held.
fn refused(name: &str, count: usize, before: &[Command], draws: &[Command]) -> Work {
    let work = Work::new(&format!("refused: {name}"), "triangle", count, words_of(draws));
    Work { status: 8, ..work.after([settings(1, 1), words_of(before)].concat()) }
}

fn refused_draws() -> Vec<Work> {
    let count = DRAWS as usize;
    let of =
        |name, before: &[Command], draw: Draw| refused(name, count, before, &drawn(draw, 2, MIDDLE, inside));
    let model_of = |name, records: &[(u32, Triangle)]| {
        let draw = [Command::draw_model(1, 2)];
        refused(name, records.len(), &[Command::model(1, records)], &draw)
    };
    let mut infinite = records(1, 500);
    infinite.iter_mut().for_each(|(_, triangle)| triangle[0].normal[0] = f32::INFINITY);
    vec![
        of("14, an infinite position", &[], |_, triangle| {
            let mut triangle = *triangle;
            triangle[0].position[0] = f32::INFINITY;
            Command::transformed(&triangle)
        }),
        of("16, no inverse of the model-view", &[Command::matrix(0, &[0.0; 16])], TRANSFORMED[1].1),
        of("18, a mode of 3", &[], |_, triangle| Command::textured(1, 3, triangle)),
        of("18, a number that is not held", &[], |mode, triangle| Command::textured(2, mode, triangle)),
        of("19, an infinite normal", &[], |mode, triangle| {
            let mut triangle = *triangle;
            triangle[0].normal[0] = f32::INFINITY;
            Command::textured_lit(1, mode, &triangle)
        }),
        model_of("1B, 500 triangles, a number that is not held", &records(2, 500)),
        model_of("1B, 500 triangles, an infinite normal", &infinite),
    ]
}

fn upload(name: &str, command: Command) -> Work {
    Work::new(name, "upload", 1, words_of(&[command]))
}

/// 64 are held. Any of them is sent again, or the oldest each time, so that all others move. Each is a call.
fn uploads_again(which: &str, numbers: Vec<u32>) -> Work {
    let sent: Vec<Command> = numbers.iter().map(|&number| texture(number, 64, 64)).collect();
    let all: Vec<Command> = (0..64).map(|number| texture(number, 64, 64)).collect();
    let (name, words) = (format!("17, 64 by 64, again, {which} of 64 held, a call each"), words_of(&sent));
    let per_call = words.len() / sent.len();
    Work { per_call, ..Work::new(&name, "upload", sent.len(), words).after(words_of(&all)) }
}

fn any_of_64() -> Vec<u32> {
    let mut random = Random::named("again", 1, 0);
    (0..256).map(|_| random.below(64)).collect()
}

/// A refused command of so many words, header included.
fn payload(words: usize) -> Work {
    let command = Command { opcode: 0x03, payload: vec![0x1234_5678; words - 1] };
    let name = format!("payload, {} words", thousands(words));
    Work { status: 8, ..Work::new(&name, "word", words, words_of(&[command])) }
}

fn thousands(number: usize) -> String {
    match number {
        0..1_000 => number.to_string(),
        _ => format!("{},{:03}", thousands(number / 1_000), number % 1_000),
    }
}

/// Calls of one word each, inside a payload, with so many textures and models held.
fn single_words(held: u32) -> Work {
    let uploads: Vec<Command> =
        (0..held).flat_map(|number| [texture(number, 2, 2), model(number, 1)]).collect();
    let name = format!("a call of one word, {held} textures and {held} models held");
    Work { name, unit: "call", per_call: 1, ..payload(1_000).after(words_of(&uploads)) }
}

fn clear(name: &str, flags: u32) -> Work {
    let clears: Vec<Command> = (1..=10).map(|n| Command::clear(flags, 0x1234_5601 * n, 0)).collect();
    Work::new(name, "clear", clears.len(), words_of(&clears))
}

fn scene(folder: &str, name: &str, about: &str) -> Result<Work, String> {
    let words = read_words(&format!("{folder}/{name}.words"))?;
    Ok(Work::new(&format!("scene {name}{about}"), "frame", 1, words))
}

fn frames(scenes: &str) -> Result<Vec<Work>, String> {
    let (uploads, frame) = overlay();
    let overlay =
        Work::new("overlay frame: plate, banner, portrait, badge", "frame", 1, frame).after(uploads);
    Ok(vec![
        overlay,
        scene(scenes, "plate", "")?,
        scene(scenes, "portrait", ", uploads included")?,
        scene(scenes, "badge", ", uploads included")?,
    ])
}

/// The rows of the first table.
pub fn all(scenes: &str) -> Result<Vec<Work>, String> {
    let mut works = vec![clear("04, colour and depths", 3), clear("04, depths alone", 2)];
    works.push(sprites::for_a_sprite());
    works.extend(BOXES.map(|frame| Work::of_draws(&format!("12, {}", size(frame)), &flat(frame))));
    works.extend(float_draws());
    works.extend(crossing_draws());
    works.push(model_draw(500));
    works.extend(refused_draws());
    works.push(upload("17, 256 by 256", texture(1, 256, 256)));
    works.push(upload("17, 1024 by 1024", texture(1, 1024, 1024)));
    works.push(uploads_again("any", any_of_64()));
    works.push(uploads_again("the oldest", (0..64).collect()));
    works.push(upload("1A, 18,724 triangles", model(1, 18_724)));
    works.extend(frames(scenes)?);
    works.extend([payload(524_292), single_words(0), single_words(64)]);
    Ok(works)
}

/// The same for pixels of a box.
fn per_pixel(kind: &str, frame: Frame, draws: Vec<Command>) -> Work {
    let work = Work::of_draws(&format!("{kind}, {}", size(frame)), &draws);
    Work { unit: "pixel of the box", count: (DRAWS * frame.0 * frame.1) as usize, ..work }
}

/// The rows of the second table: sizes that grow, with a time for each word, pixel or triangle.
pub fn growing() -> Vec<Work> {
    let mut works: Vec<Work> = [1_000, 10_000, 100_000, 524_292].map(payload).into();
    for side in [32, 128, 512] {
        let words = words_of(&[texture(1, side, side)]);
        works.push(Work::new(&format!("17, {side} by {side}"), "word", words.len(), words));
    }
    works.extend(GROWING.map(|frame| per_pixel("12", frame, flat(frame))));
    for frame in GROWING {
        let draws = drawn(TRANSFORMED[0].1, 0, frame, inside);
        works.push(per_pixel("14, shading 1", frame, draws).after(settings(1, 0)));
    }
    for frame in GROWING {
        let draws = drawn(TEXTURED[0].1, 2, frame, inside);
        works.push(per_pixel("18, mode 2", frame, draws).after(settings(0, 0)));
    }
    works.extend([20, 200, 2_000].map(model_draw));
    works
}
