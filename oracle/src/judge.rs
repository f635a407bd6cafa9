//! The judge of a run: the original, with what the rules refuse and the original does not (flat triangles beyond 8192,
//! uploads without room) withheld from it. Sprites are drawn by the reading that is appended to the original. The judge
//! frames the words itself and hands over whole commands; status, slots and the command area are its own. The reason for
//! every command is compared with what the original makes of the command.

use crate::kept::{List, Upload};
use crate::original::Vpu;
use crate::reasons::{Reader, Reason};
use crate::watch::{Seen, Watch, DRAWS};

/// Words of the command area, and the most payload words of a command.
pub const AREA: usize = 524_291;

/// What a run begins with: words of the texture store and of the model store, and the status.
#[derive(Clone, Copy, Debug)]
pub struct Start {
    pub stores: [usize; 2],
    pub status: u32,
}

pub struct Judge {
    pub original: Vpu,
    pub textures: List,
    pub models: List,
    pub area: Vec<u32>,
    pub status: u32,
    seen: Seen,
    /// Header and payload words of the command begun, and how many words are still missing.
    begun: Vec<u32>,
    wanted: usize,
}

impl Judge {
    pub fn new() -> Self {
        let original = Vpu::new();
        Self {
            seen: Seen::of(&original),
            original,
            textures: List::new(0),
            models: List::new(0),
            area: vec![0; AREA],
            status: 0,
            begun: Vec::new(),
            wanted: 0,
        }
    }

    /// Resets all but the command area.
    pub fn reset(&mut self, start: Start) {
        let [textures, models] = start.stores.map(List::new);
        (self.original, self.textures, self.models) = (Vpu::new(), textures, models);
        (self.status, self.wanted) = (start.status, 0);
        self.begun.clear();
        self.seen.changed(&self.original);
    }

    /// Returns what was misread, if anything.
    pub fn feed(&mut self, words: &[u32], watch: &mut Watch) -> Option<String> {
        let mut misread = None;
        for word in words {
            misread = misread.or(self.take(*word, watch));
        }
        misread
    }

    fn take(&mut self, word: u32, watch: &mut Watch) -> Option<String> {
        if !self.begun.is_empty() {
            self.area[self.begun.len() - 1] = word;
            self.wanted -= 1;
        } else {
            let count = (word & 0x00ff_ffff) as usize;
            if word >> 24 == 0 {
                return self.end(&[word], Some(Reason::ZeroOpcode), watch);
            }
            if count > AREA {
                return self.end(&[word], Some(Reason::CountTooLarge), watch);
            }
            self.wanted = count;
        }
        self.begun.push(word);
        if self.wanted > 0 {
            return None;
        }
        let command = std::mem::take(&mut self.begun);
        let reason = self.reader().refusal((command[0] >> 24) as u8, &command[1..]);
        self.end(&command, reason, watch)
    }

    /// Reads commands under the present settings and uploads.
    pub fn reader(&self) -> Reader<'_> {
        Reader { vpu: &self.original, textures: &self.textures, models: &self.models }
    }

    /// Takes a whole command, or a header that is dropped, and why it is refused. Returns what was misread.
    fn end(&mut self, words: &[u32], reason: Option<Reason>, watch: &mut Watch) -> Option<String> {
        let opcode = (words[0] >> 24) as u8;
        let bit = reason.map_or(0, Reason::bit);
        let withheld = match reason {
            Some(Reason::OutOfRange) => opcode == 0x12,
            Some(Reason::NoSlot | Reason::NoWords) => true,
            _ => false,
        };
        self.status |= bit;
        if !withheld {
            self.original.set_status(0);
            self.original.feed(words);
        }
        if reason.is_none() {
            self.keep(opcode, &words[1..]);
        }
        let paints = DRAWS.contains(&opcode) || opcode == 0x04;
        let changed = paints && !withheld && self.seen.changed(&self.original);
        watch.add(opcode, reason, changed);
        let (status, begun) = (self.original.status(), self.original.begun());
        let misread = !withheld && (status != bit || begun.is_some());
        misread.then(|| {
            format!("{:08x} is read as {reason:?}, and the original's status is {status:08x}", words[0])
        })
    }

    fn keep(&mut self, opcode: u8, p: &[u32]) {
        match opcode {
            0x17 => self.textures.put(Upload { number: p[0], sides: [p[1], p[2]], words: p[3..].to_vec() }),
            0x1a => self.models.put(Upload { number: p[0], sides: [p[1], 0], words: p[2..].to_vec() }),
            _ => {}
        }
    }

    /// Opcode, payload words gathered and payload words still wanted of a command that is begun.
    pub fn begun(&self) -> [u32; 3] {
        match self.begun.first() {
            Some(header) => [header >> 24, self.begun.len() as u32 - 1, self.wanted as u32],
            None => [0; 3],
        }
    }

    /// The small state, field by field in the order of the port's C struct.
    pub fn state_words(&self) -> Vec<u32> {
        let vpu = &self.original;
        let mut words: Vec<u32> = (0..3).flat_map(|index| vpu.matrix(index)).map(f32::to_bits).collect();
        words.extend([vpu.shading_mode(), vpu.lighting_enabled() as u32]);
        for (switch, terms) in (0..8).map(|index| vpu.light(index)) {
            words.push(switch as u32);
            words.extend(terms.map(f32::to_bits));
        }
        words.extend(self.textures.slot_words());
        words.extend(self.models.slot_words());
        words.extend(self.begun());
        words.push(self.status);
        words
    }
}
