//! Why a command is refused, by a plain reading of its words. The rules are those of docs/RULES.md. The reasons, and the
//! order in which they are looked for, are those of request A3, except for a transformed position that is not finite.

use crate::kept::List;
use crate::original::{call_inverse_transpose_3x3, call_multiply_matrix, call_transform_matrix, Vpu};
use crate::shapes::{out_of_reach, FLAT_REACH};

#[derive(Clone, Copy, Debug, PartialEq, Eq, PartialOrd, Ord)]
pub enum Reason {
    ZeroOpcode,
    CountTooLarge,
    UnknownOpcode,
    WrongLength,
    OutOfRange,
    NotFinite,
    Position,
    NotHeld,
    NotInvertible,
    NoSlot,
    NoWords,
}

use Reason::*;

impl Reason {
    /// The status bit.
    pub fn bit(self) -> u32 {
        match self {
            ZeroOpcode => 1 << 2,
            NoSlot | NoWords => 1 << 6,
            _ => 1 << 3,
        }
    }
}

/// What a row of the counts is about, and the reasons that it has. Headers that are dropped have a row, and opcodes that
/// no command has.
pub type Row = (&'static str, &'static [Reason]);

pub const HEADERS: Row = ("header", &[ZeroOpcode, CountTooLarge]);
pub const OTHERS: Row = ("others", &[UnknownOpcode]);

#[rustfmt::skip]
pub const COMMANDS: [(u8, Row); 13] = [
    (0x01, ("01", &[WrongLength, OutOfRange])),
    (0x02, ("02", &[WrongLength, OutOfRange, NotFinite])),
    (0x04, ("04", &[WrongLength, OutOfRange])),
    (0x10, ("10", &[WrongLength, OutOfRange, NotHeld])),
    (0x12, ("12", &[WrongLength, OutOfRange])),
    (0x14, ("14", &[WrongLength, NotFinite, Position])),
    (0x15, ("15", &[WrongLength, OutOfRange, NotFinite])),
    (0x16, ("16", &[WrongLength, NotFinite, Position, NotInvertible])),
    (0x17, ("17", &[WrongLength, OutOfRange, NoSlot, NoWords])),
    (0x18, ("18", &[WrongLength, OutOfRange, NotFinite, Position, NotHeld])),
    (0x19, ("19", &[WrongLength, OutOfRange, NotFinite, NotHeld, NotInvertible])),
    (0x1a, ("1A", &[WrongLength, OutOfRange, NoSlot, NoWords])),
    (0x1b, ("1B", &[WrongLength, OutOfRange, NotFinite, NotHeld, NotInvertible])),
];

pub fn row(opcode: u8, reason: Option<Reason>) -> Row {
    match reason {
        Some(ZeroOpcode | CountTooLarge) => HEADERS,
        _ => COMMANDS.iter().find(|(known, _)| *known == opcode).map_or(OTHERS, |(_, row)| *row),
    }
}

/// What a reading needs besides the command: the original for its matrices, and the lists of what is held.
pub struct Reader<'a> {
    pub vpu: &'a Vpu,
    pub textures: &'a List,
    pub models: &'a List,
}

fn when(refused: bool, reason: Reason) -> Option<Reason> {
    refused.then_some(reason)
}

fn finite(words: &[u32]) -> Option<Reason> {
    when(words.iter().any(|word| word & 0x7f80_0000 == 0x7f80_0000), NotFinite)
}

/// The reason if the command cannot have so many payload words.
fn length(opcode: u8, count: usize) -> Option<Reason> {
    let right = match opcode {
        0x01 | 0x1b => count == 2,
        0x02 | 0x15 => count == 17,
        0x04 => count == 3,
        0x10 => count == 7,
        0x12 => count == 11,
        0x14 => count == 12,
        0x16 => count == 21,
        0x18 => count == 20,
        0x19 => count == 29,
        0x17 => count >= 3,
        0x1a => count >= 2,
        _ => return Some(UnknownOpcode),
    };
    when(!right, WrongLength)
}

impl Reader<'_> {
    pub fn refusal(&self, opcode: u8, p: &[u32]) -> Option<Reason> {
        length(opcode, p.len()).or_else(|| match opcode {
            0x01 => when(p[0] > 1 || p[1] > 1, OutOfRange),
            0x02 => when(p[0] > 2, OutOfRange).or_else(|| finite(&p[1..])),
            0x04 => when(p[0] > 3, OutOfRange),
            0x10 => self.sprite(p).map(|(reason, _)| reason),
            0x12 => when(out_of_reach(p).is_some(), OutOfRange),
            0x14 => self.transformed(p, 4),
            0x15 => when(p[0] > 7 || p[1] > 1, OutOfRange).or_else(|| finite(&p[2..])),
            0x16 => self.invertible().or_else(|| self.transformed(p, 7)),
            0x17 => self.texture(p),
            0x18 => self.textured(p),
            0x19 => self.textured_lit(p),
            0x1a => self.model(p),
            _ => self.draw_model(p),
        })
    }

    /// Why a sprite is refused, and at which word of its payload.
    pub fn sprite(&self, p: &[u32]) -> Option<(Reason, usize)> {
        if p.len() != 7 {
            return Some((WrongLength, 0));
        }
        let Some(texture) = self.textures.find(p[0]) else { return Some((NotHeld, 0)) };
        let too_far = |start: u32, count: u32, side: u32| start as u64 + count as u64 > side as u64;
        let out_of_reach = |word: u32| !(-FLAT_REACH..=FLAT_REACH).contains(&(word as i32));
        let checks = [
            (p[3] == 0, 3),
            (p[4] == 0, 4),
            (too_far(p[1], p[3], texture.sides[0]), 3),
            (too_far(p[2], p[4], texture.sides[1]), 4),
            (out_of_reach(p[5]), 5),
            (out_of_reach(p[6]), 6),
        ];
        checks.into_iter().find(|(refused, _)| *refused).map(|(_, word)| (OutOfRange, word))
    }

    fn invertible(&self) -> Option<Reason> {
        let model_view = call_multiply_matrix(&self.vpu.matrix(1), &self.vpu.matrix(0));
        when(call_inverse_transpose_3x3(&model_view).is_none(), NotInvertible)
    }

    fn position(&self, words: &[u32]) -> Option<Reason> {
        let start = [words[0], words[1], words[2], 1f32.to_bits()].map(f32::from_bits);
        let end = (0..3).fold(start, |place, index| call_transform_matrix(&self.vpu.matrix(index), place));
        when(end.iter().any(|value| !value.is_finite()), Position)
    }

    /// Tests the inputs of all corners, whose last word is a colour, before any transformed position.
    fn transformed(&self, p: &[u32], stride: usize) -> Option<Reason> {
        let mut corners = p.chunks(stride);
        corners
            .clone()
            .find_map(|corner| finite(&corner[..stride - 1]))
            .or_else(|| corners.find_map(|corner| self.position(corner)))
    }

    fn mode_and_texture(&self, p: &[u32]) -> Option<Reason> {
        when(p[1] > 2, OutOfRange).or_else(|| when(self.textures.find(p[0]).is_none(), NotHeld))
    }

    fn textured(&self, p: &[u32]) -> Option<Reason> {
        let corner = |corner: &[u32]| self.position(corner).or_else(|| finite(&corner[3..5]));
        self.mode_and_texture(p).or_else(|| p[2..].chunks(6).find_map(corner))
    }

    fn textured_lit(&self, p: &[u32]) -> Option<Reason> {
        let corners = || p[2..].chunks(9).find_map(|corner| finite(&corner[..8]));
        self.mode_and_texture(p).or_else(|| self.invertible()).or_else(corners)
    }

    fn texture(&self, p: &[u32]) -> Option<Reason> {
        if p[1..3].iter().any(|side| !(1..=1024).contains(side)) {
            return Some(OutOfRange);
        }
        let words = (p[1] * p[2]).div_ceil(2) as usize;
        when(p.len() != 3 + words, WrongLength).or_else(|| self.textures.refusal(p[0], words))
    }

    fn model(&self, p: &[u32]) -> Option<Reason> {
        let words = 28 * p[1] as u64;
        when(p[1] == 0, OutOfRange)
            .or_else(|| when(p.len() as u64 != 2 + words, WrongLength))
            .or_else(|| self.models.refusal(p[0], words as usize))
    }

    /// The reason of the first refused record; the others are still drawn.
    fn draw_model(&self, p: &[u32]) -> Option<Reason> {
        if p[1] > 2 {
            return Some(OutOfRange);
        }
        let Some(model) = self.models.find(p[0]) else { return Some(NotHeld) };
        let record = |record: &[u32]| self.textured_lit(&[&record[..1], &p[1..], &record[1..]].concat());
        model.words.chunks(28).find_map(record)
    }
}
