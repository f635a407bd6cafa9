//! Single sprites, in families by number. Each family says what has to come of its sprites.

use crate::maker::Maker;
use crate::random::Random;
use crate::reasons::Reason;
use crate::sprites::{Alpha, Change, Fault, Sheet, Sprite, FAULTS, HIDDEN, NEAR_FAULTS, SEEN};
use crate::streams::{Command, Stream};

/// What has to come of a sprite.
#[derive(Clone, Copy, PartialEq)]
pub enum Meant {
    Seen,
    Unseen,
    Refused(Reason, usize),
}

impl Meant {
    /// What is wrong, for a reason and a word that were read and a plane that has changed or not. Some texels of a sprite
    /// that is meant to be seen have alpha 0, so that few such sprites change nothing.
    pub fn wrong(self, read: Option<(Reason, usize)>, changed: bool) -> Option<String> {
        let refusal = match self {
            Meant::Refused(reason, word) => Some((reason, word)),
            _ => None,
        };
        if read != refusal {
            return Some(format!("a sprite is meant as {refusal:?} and read as {read:?}"));
        }
        (changed && self != Meant::Seen).then(|| "a sprite is seen that is not meant to be".to_string())
    }
}

/// How a family's textures and sprites are made.
enum Making {
    Changed(Vec<Change>),
    /// All texels with such alphas.
    Alphas(Alpha),
    /// A texture whose width is odd.
    OddTexture,
    /// The whole of the largest texture.
    Largest,
}

pub struct Family {
    pub name: String,
    pub meant: Meant,
    making: Making,
}

impl Family {
    fn new(name: &str, meant: Meant, making: Making) -> Self {
        Self { name: name.to_string(), meant, making }
    }

    fn of_faults(faults: &[Fault]) -> Self {
        let names: Vec<&str> = faults.iter().map(|fault| fault.name).collect();
        let meant = Meant::Refused(faults[0].reason, faults[0].word);
        let making = Making::Changed(faults.iter().map(|fault| fault.change).collect());
        Self::new(&format!("refused: {}", names.join(", ")), meant, making)
    }

    /// Whether its sprites are made on a machine that holds the largest texture.
    pub fn on_largest(&self) -> bool {
        matches!(self.making, Making::Largest)
    }
}

fn of_changes(changes: &[(&str, Change)], meant: Meant) -> Vec<Family> {
    let family = |(name, change): &(&str, Change)| Family::new(name, meant, Making::Changed(vec![*change]));
    changes.iter().map(family).collect()
}

/// All families; those that are meant to be seen come first.
pub fn families() -> Vec<Family> {
    let mut families = of_changes(&SEEN, Meant::Seen);
    families.extend([
        Family::new("a texture of odd width", Meant::Seen, Making::OddTexture),
        Family::new("the whole of 1024 by 1024", Meant::Seen, Making::Largest),
        Family::new("some texels of alpha 0", Meant::Seen, Making::Alphas(Alpha::Mixed)),
        Family::new("no texel of alpha 0", Meant::Seen, Making::Alphas(Alpha::Drawn)),
        Family::new("all texels of alpha 0", Meant::Unseen, Making::Alphas(Alpha::Clear)),
    ]);
    families.extend(of_changes(&HIDDEN, Meant::Unseen));
    families.extend(FAULTS.iter().chain(&NEAR_FAULTS).map(|fault| Family::of_faults(&[*fault])));
    families.extend(FAULTS.windows(2).map(Family::of_faults));
    families
}

/// The turns of a family that is meant to be seen, for each turn of another.
const SEEN_TURNS: u64 = 3;

/// The family of sprite number `turn`.
pub fn family_of(families: &[Family], turn: u64) -> usize {
    let seen = families.iter().filter(|family| family.meant == Meant::Seen).count() as u64;
    let others = families.len() as u64 - seen;
    let place = turn % (SEEN_TURNS * seen + others);
    let family = if place < SEEN_TURNS * seen { place % seen } else { place - (SEEN_TURNS - 1) * seen };
    family as usize
}

const LARGEST: Sheet = Sheet { number: 0x1024, sides: [1024, 1024] };

/// The call that uploads the largest texture.
pub fn largest_upload(seed: u64) -> Vec<u32> {
    let mut stream = Stream::default();
    stream.send(&LARGEST.upload(Alpha::Mixed, &mut Random::named("largest", seed, 0)));
    stream.words
}

/// Mostly of a size that leaves room on the plane, sometimes a long strip.
fn sheet(random: &mut Random) -> Sheet {
    let sides = match random.below(16) {
        0 => [1024, 4],
        1 => [4, 1024],
        _ => [4 + random.below(37), 4 + random.below(37)],
    };
    Sheet { number: random.below(8), sides }
}

/// Triangles that leave depths behind, in front of everything or not.
fn triangles(maker: &mut Maker) {
    if maker.random.chance(30) {
        let command = maker.flat_around(100);
        maker.send(command);
    }
    if maker.random.chance(30) {
        let triangle = maker.triangle_of_size(1.0);
        maker.send(Command::transformed(&triangle));
    }
}

/// Sends what comes before a sprite of the family; returns the sprite.
pub fn draw(maker: &mut Maker, family: &Family) -> Command {
    triangles(maker);
    if family.on_largest() {
        return whole_of_largest(&mut maker.random);
    }
    let mut sheet = sheet(&mut maker.random);
    if matches!(family.making, Making::OddTexture) {
        sheet.sides[0] = (sheet.sides[0] - 1) | 1;
    }
    let mut sprite = Sprite::of(sheet, &mut maker.random);
    if let Making::Changed(changes) = &family.making {
        changes.iter().for_each(|change| change(&mut sprite, &mut maker.random));
    }
    let alpha = if let Making::Alphas(alpha) = family.making { alpha } else { Alpha::Mixed };
    maker.upload_sheet(sheet, alpha);
    sprite.command()
}

/// Everywhere that a pixel of it is on the plane.
fn whole_of_largest(random: &mut Random) -> Command {
    let target = [random.between(-1023, 319), random.between(-1023, 239)];
    Command::sprite(LARGEST.number, [0, 0], LARGEST.sides, target)
}
