//! The uploads of one kind by the rules of the stores (docs/RULES.md, section 8): a plain list, the last accepted one last.

use crate::reasons::Reason;

const MOST_HELD: usize = 64;

pub struct Upload {
    pub number: u32,
    /// Width and height, or a model's count and 0.
    pub sides: [u32; 2],
    pub words: Vec<u32>,
}

pub struct List {
    /// Words of the store.
    pub room: usize,
    pub held: Vec<Upload>,
}

impl List {
    pub fn new(room: usize) -> Self {
        Self { room, held: Vec::new() }
    }

    pub fn find(&self, number: u32) -> Option<&Upload> {
        self.held.iter().find(|upload| upload.number == number)
    }

    /// Words of the uploads under any other number: one under this number would go.
    fn beside(&self, number: u32) -> usize {
        self.held.iter().filter(|upload| upload.number != number).map(|upload| upload.words.len()).sum()
    }

    /// Why an upload of so many words under this number has no room, if it has none.
    pub fn refusal(&self, number: u32, words: usize) -> Option<Reason> {
        if self.find(number).is_none() && self.held.len() == MOST_HELD {
            return Some(Reason::NoSlot);
        }
        (self.beside(number) + words > self.room).then_some(Reason::NoWords)
    }

    pub fn put(&mut self, upload: Upload) {
        self.held.retain(|old| old.number != upload.number);
        self.held.push(upload);
    }

    /// The list as 64 slots: held, number, sides, start.
    pub fn slot_words(&self) -> Vec<u32> {
        let (mut words, mut start) = (Vec::new(), 0);
        for Upload { number, sides, words: kept } in &self.held {
            words.extend([1, *number, sides[0], sides[1], start]);
            start += kept.len() as u32;
        }
        words.resize(5 * MOST_HELD, 0);
        words
    }

    /// The first word of the store, after a reset, that is not as the list says.
    pub fn first_other(&self, store: &[u32]) -> Option<usize> {
        let mut start = 0;
        for Upload { words, .. } in &self.held {
            let kept = &store[start..start + words.len()];
            if kept != words {
                return kept.iter().zip(words).position(|(a, b)| a != b).map(|place| start + place);
            }
            start += words.len();
        }
        store[start..].iter().position(|word| *word != 0).map(|place| start + place)
    }
}
