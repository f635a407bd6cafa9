//! Sprites under construction: textures for them, what they take of a texture, where it goes, and what can be wrong.

use crate::random::Random;
use crate::reasons::Reason;
use crate::streams::{header, Command, Stream};

/// Columns and rows of the plane.
const PLANE: [i32; 2] = [320, 240];

/// How far a target may be from 0.
const REACH: i32 = 8192;

/// A texture that is held.
#[derive(Clone, Copy)]
pub struct Sheet {
    pub number: u32,
    pub sides: [u32; 2],
}

/// The alphas of a texture: 0 and others, 1 to 15, 0 alone.
#[derive(Clone, Copy)]
pub enum Alpha {
    Mixed,
    Drawn,
    Clear,
}

impl Alpha {
    fn texel(self, random: &mut Random) -> u32 {
        let colour = random.below(0x1000) << 4;
        let drawn = match self {
            Alpha::Mixed => random.chance(65),
            Alpha::Drawn => true,
            Alpha::Clear => false,
        };
        colour | if drawn { 1 + random.below(15) } else { 0 }
    }
}

impl Sheet {
    fn words(&self) -> u32 {
        (self.sides[0] * self.sides[1]).div_ceil(2)
    }

    pub fn upload(&self, alpha: Alpha, random: &mut Random) -> Command {
        let texels: Vec<u32> =
            (0..self.words()).map(|_| alpha.texel(random) << 16 | alpha.texel(random)).collect();
        Command::texture(self.number, self.sides[0], self.sides[1], &texels)
    }

    /// The texture whose upload these words begin with.
    fn uploaded_by(words: &[u32]) -> Option<Self> {
        let [head, number, width, height, ..] = *words else { return None };
        let sheet = Self { number, sides: [width, height] };
        let sides_are_right = sheet.sides.iter().all(|side| (1..=1024).contains(side));
        (sides_are_right && head == header(0x17, 3 + sheet.words())).then_some(sheet)
    }
}

/// The textures that a stream has uploaded before this word, if it had room.
pub fn sheets(stream: &Stream, before: usize) -> Vec<Sheet> {
    let mut sheets: Vec<Sheet> = Vec::new();
    for at in stream.headers.iter().take_while(|at| **at < before) {
        if let Some(sheet) = Sheet::uploaded_by(&stream.words[*at..]) {
            sheets.retain(|old| old.number != sheet.number);
            sheets.push(sheet);
        }
    }
    sheets
}

#[derive(Clone)]
pub struct Sprite {
    pub sheet: Sheet,
    /// The number that is asked for.
    pub number: u32,
    pub source: [u32; 2],
    pub size: [u32; 2],
    pub target: [i32; 2],
    /// Words of the payload.
    pub count: usize,
}

impl Sprite {
    /// Any part of the texture, on the plane as far as it fits.
    pub fn of(sheet: Sheet, random: &mut Random) -> Self {
        let least = sheet.sides.map(|side| side.min(2));
        let size = [0, 1].map(|axis| least[axis] + random.below(sheet.sides[axis] - least[axis] + 1));
        let source = [0, 1].map(|axis| random.below(sheet.sides[axis] - size[axis] + 1));
        let mut sprite = Self { sheet, number: sheet.number, source, size, target: [0; 2], count: 7 };
        sprite.put([fitting, fitting], random);
        sprite
    }

    pub fn command(&self) -> Command {
        let mut command = Command::sprite(self.number, self.source, self.size, self.target);
        command.payload.resize(self.count, 1);
        command
    }

    fn put(&mut self, places: [Along; 2], random: &mut Random) {
        for axis in 0..2 {
            self.target[axis] = places[axis](self.size[axis] as i32, PLANE[axis], random);
        }
    }

    /// As far to the right and down in the texture as it fits, and this much farther.
    fn take_end(&mut self, axis: usize, farther: u32) {
        self.source[axis] = self.sheet.sides[axis] - self.size[axis] + farther;
    }

    /// Source and size have a sum that the texture's side allows in 32 bits only.
    fn wrap(&mut self, axis: usize, random: &mut Random) {
        self.source[axis] = u32::MAX - random.below(self.size[axis]);
    }

    fn take_too_much(&mut self, axis: usize, random: &mut Random) {
        match random.below(5) {
            0 => self.take_end(axis, 1),
            1 => self.size[axis] = self.sheet.sides[axis] - self.source[axis] + 1,
            2 => self.wrap(axis, random),
            3 => self.size[axis] = u32::MAX - random.below(3),
            _ => self.source[axis] = random.word() | 0x8000_0000,
        }
    }

    fn leave_reach(&mut self, axis: usize, random: &mut Random) {
        let far = [REACH + 1, -REACH - 1, 16_384, -70_000, 0x0100_0000, i32::MAX, i32::MIN];
        self.target[axis] = random.pick(&far);
    }
}

// Places along an axis of the plane

/// The first place, for a sprite of so many pixels on a plane of so many.
type Along = fn(i32, i32, &mut Random) -> i32;

fn fitting(count: i32, plane: i32, random: &mut Random) -> i32 {
    random.between((plane - count).min(0), (plane - count).max(0))
}

/// At least one pixel is off the plane and at least one is on it, unless there is only one.
fn over_start(count: i32, _: i32, random: &mut Random) -> i32 {
    random.between(1, (count - 1).max(1)) - count
}

fn over_end(count: i32, plane: i32, random: &mut Random) -> i32 {
    plane - random.between(1, (count - 1).max(1))
}

fn at_start(_: i32, _: i32, _: &mut Random) -> i32 {
    0
}

fn at_end(count: i32, plane: i32, _: &mut Random) -> i32 {
    plane - count
}

fn just_before(count: i32, _: i32, _: &mut Random) -> i32 {
    -count
}

fn just_after(_: i32, plane: i32, _: &mut Random) -> i32 {
    plane
}

fn before(count: i32, _: i32, random: &mut Random) -> i32 {
    -count - random.pick(&[1, 2, 30, 2_000]) - random.below(100) as i32
}

fn after(_: i32, plane: i32, random: &mut Random) -> i32 {
    plane + random.pick(&[1, 2, 30, 2_000]) + random.below(100) as i32
}

// Changes of a sprite, each with its name

pub type Change = fn(&mut Sprite, &mut Random);

/// Changes after which the sprite can still be seen.
#[rustfmt::skip]
pub const SEEN: [(&str, Change); 18] = [
    ("over the left edge", |sprite, random| sprite.put([over_start, fitting], random)),
    ("over the right edge", |sprite, random| sprite.put([over_end, fitting], random)),
    ("over the upper edge", |sprite, random| sprite.put([fitting, over_start], random)),
    ("over the lower edge", |sprite, random| sprite.put([fitting, over_end], random)),
    ("over the upper left corner", |sprite, random| sprite.put([over_start, over_start], random)),
    ("over the upper right corner", |sprite, random| sprite.put([over_end, over_start], random)),
    ("over the lower left corner", |sprite, random| sprite.put([over_start, over_end], random)),
    ("over the lower right corner", |sprite, random| sprite.put([over_end, over_end], random)),
    ("touching the left edge", |sprite, random| sprite.put([at_start, fitting], random)),
    ("touching the right edge", |sprite, random| sprite.put([at_end, fitting], random)),
    ("touching the upper edge", |sprite, random| sprite.put([fitting, at_start], random)),
    ("touching the lower edge", |sprite, random| sprite.put([fitting, at_end], random)),
    ("1 by 1", |sprite, _| sprite.size = [1, 1]),
    ("an odd width", |sprite, _| sprite.size[0] = (sprite.size[0] - 1) | 1),
    ("an odd source x", |sprite, _| make_source_odd(sprite)),
    ("up to the texture's right edge", |sprite, _| sprite.take_end(0, 0)),
    ("up to the texture's lower edge", |sprite, _| sprite.take_end(1, 0)),
    ("the whole texture", |sprite, _| (sprite.source, sprite.size) = ([0, 0], sprite.sheet.sides)),
];

/// A texture of one column has no odd place.
fn make_source_odd(sprite: &mut Sprite) {
    let place = sprite.source[0] | 1;
    if place < sprite.sheet.sides[0] {
        sprite.source[0] = place;
        sprite.size[0] = sprite.size[0].min(sprite.sheet.sides[0] - place);
    }
}

/// Changes after which no pixel of the sprite is on the plane.
#[rustfmt::skip]
pub const HIDDEN: [(&str, Change); 12] = [
    ("off to the left", |sprite, random| sprite.put([before, fitting], random)),
    ("off to the right", |sprite, random| sprite.put([after, fitting], random)),
    ("off above", |sprite, random| sprite.put([fitting, before], random)),
    ("off below", |sprite, random| sprite.put([fitting, after], random)),
    ("just off to the left", |sprite, random| sprite.put([just_before, fitting], random)),
    ("just off to the right", |sprite, random| sprite.put([just_after, fitting], random)),
    ("just off above", |sprite, random| sprite.put([fitting, just_before], random)),
    ("just off below", |sprite, random| sprite.put([fitting, just_after], random)),
    ("target x of -8192", |sprite, _| sprite.target[0] = -REACH),
    ("target x of 8192", |sprite, _| sprite.target[0] = REACH),
    ("target y of -8192", |sprite, _| sprite.target[1] = -REACH),
    ("target y of 8192", |sprite, _| sprite.target[1] = REACH),
];

/// A change after which the sprite is refused, why, and at which word of its payload.
#[derive(Clone, Copy)]
pub struct Fault {
    pub name: &'static str,
    pub reason: Reason,
    pub word: usize,
    pub change: Change,
}

const fn fault(name: &'static str, reason: Reason, word: usize, change: Change) -> Fault {
    Fault { name, reason, word, change }
}

const fn range(name: &'static str, word: usize, change: Change) -> Fault {
    fault(name, Reason::OutOfRange, word, change)
}

/// One for each check, in the order of the checks.
#[rustfmt::skip]
pub const FAULTS: [Fault; 8] = [
    fault("a wrong length", Reason::WrongLength, 0, |sprite, random| sprite.count = random.pick(&[0, 1, 6, 8, 15])),
    fault("a number not held", Reason::NotHeld, 0, |sprite, random| sprite.number ^= 0x100 << random.below(24)),
    range("a width of 0", 3, |sprite, _| sprite.size[0] = 0),
    range("a height of 0", 4, |sprite, _| sprite.size[1] = 0),
    range("beyond the texture's right edge", 3, |sprite, random| sprite.take_too_much(0, random)),
    range("beyond the texture's lower edge", 4, |sprite, random| sprite.take_too_much(1, random)),
    range("target x out of reach", 5, |sprite, random| sprite.leave_reach(0, random)),
    range("target y out of reach", 6, |sprite, random| sprite.leave_reach(1, random)),
];

/// What is just beyond a limit, or within it in 32 bits only.
#[rustfmt::skip]
pub const NEAR_FAULTS: [Fault; 8] = [
    range("one beyond the texture's right edge", 3, |sprite, _| sprite.take_end(0, 1)),
    range("one beyond the texture's lower edge", 4, |sprite, _| sprite.take_end(1, 1)),
    range("source x and width wrap", 3, |sprite, random| sprite.wrap(0, random)),
    range("source y and height wrap", 4, |sprite, random| sprite.wrap(1, random)),
    range("target x of -8193", 5, |sprite, _| sprite.target[0] = -REACH - 1),
    range("target x of 8193", 5, |sprite, _| sprite.target[0] = REACH + 1),
    range("target y of -8193", 6, |sprite, _| sprite.target[1] = -REACH - 1),
    range("target y of 8193", 6, |sprite, _| sprite.target[1] = REACH + 1),
];

/// Of each hundred sprites, so many are refused and so many cannot be seen.
const REFUSED: u32 = 10;
const UNSEEN: u32 = 12;

/// A sprite of this texture: one or two changes, mostly such that it can be seen.
pub fn any_sprite(sheet: Sheet, random: &mut Random) -> Command {
    let mut sprite = Sprite::of(sheet, random);
    random.pick(&SEEN).1(&mut sprite, random);
    match random.below(100) {
        turn if turn < REFUSED / 2 => (random.pick(&FAULTS).change)(&mut sprite, random),
        turn if turn < REFUSED => (random.pick(&NEAR_FAULTS).change)(&mut sprite, random),
        turn if turn < REFUSED + UNSEEN => random.pick(&HIDDEN).1(&mut sprite, random),
        turn if turn < 50 => random.pick(&SEEN).1(&mut sprite, random),
        _ => {}
    }
    sprite.command()
}

/// Puts a few sprites between the commands of a stream that has uploaded textures before.
pub fn scatter(stream: &mut Stream, random: &mut Random) {
    for _ in 0..1 + random.below(5) {
        let place = random.below(stream.headers.len() as u32) as usize;
        let held = sheets(stream, stream.headers[place]);
        if !held.is_empty() {
            let command = any_sprite(random.pick(&held), random);
            stream.insert(place, &command);
        }
    }
}
