//! Counting commands, and the draws that change a pixel.

use crate::original::Vpu;
use crate::reasons::{row, Reason, Row};
use std::collections::BTreeMap;

pub const DRAWS: [u8; 7] = [0x10, 0x12, 0x14, 0x16, 0x18, 0x19, 0x1b];

/// Feeds one word; returns the opcode of the command that it ends.
pub fn ended_by(vpu: &mut Vpu, word: u32) -> Option<u8> {
    let opcode = vpu.begun().map_or((word >> 24) as u8, |(opcode, _, _)| opcode);
    vpu.feed(&[word]);
    vpu.begun().is_none().then_some(opcode)
}

/// The plane as last seen.
pub struct Seen(Vec<u8>);

impl Seen {
    pub fn of(vpu: &Vpu) -> Self {
        Self(vpu.plane().to_vec())
    }

    /// Whether the plane has changed since this was last asked.
    pub fn changed(&mut self, vpu: &Vpu) -> bool {
        let changed = vpu.plane() != &self.0[..];
        if changed {
            self.0.copy_from_slice(vpu.plane());
        }
        changed
    }
}

/// Counts of whole commands: for each row and reason, and of draws.
#[derive(Default)]
pub struct Watch {
    counts: BTreeMap<(&'static str, Option<Reason>), u64>,
    pub commands: u64,
    pub draws: u64,
    pub changed: u64,
}

impl Watch {
    /// Counts a command, why it was refused, and whether it changed the plane.
    pub fn add(&mut self, opcode: u8, reason: Option<Reason>, changed: bool) {
        *self.counts.entry((row(opcode, reason).0, reason)).or_default() += 1;
        self.commands += 1;
        if DRAWS.contains(&opcode) {
            self.draws += 1;
            self.changed += changed as u64;
        }
    }

    pub fn count(&self, row: Row, reason: Option<Reason>) -> u64 {
        self.counts.get(&(row.0, reason)).copied().unwrap_or(0)
    }

    pub fn share(&self) -> f64 {
        100.0 * self.changed as f64 / self.draws.max(1) as f64
    }
}
