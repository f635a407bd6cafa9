//! Stored streams: the file that the program `replay` reads, and what it has to print for each.

use crate::digests::Digests;
use crate::original::Vpu;
use crate::words::{decode_calls, encode_calls};

const NAME_WORDS: usize = 6;

pub struct Stored {
    pub name: String,
    pub calls: Vec<Vec<u32>>,
}

/// Stream after stream: its name, a count, and that many words of a stream file.
pub fn encode(streams: &[Stored]) -> Vec<u32> {
    streams
        .iter()
        .flat_map(|stream| {
            let calls = encode_calls(&stream.calls);
            [&name_words(&stream.name)[..], &[calls.len() as u32], &calls].concat()
        })
        .collect()
}

pub fn decode(words: &[u32]) -> Result<Vec<Stored>, String> {
    let mut streams = Vec::new();
    let mut rest = words;
    while !rest.is_empty() {
        let (head, after) = rest.split_at_checked(NAME_WORDS + 1).ok_or("an end inside a name")?;
        let (name, count) = (name_text(&head[..NAME_WORDS]), head[NAME_WORDS] as usize);
        let (words, after) = after.split_at_checked(count).ok_or(format!("{name}: an end inside"))?;
        streams.push(Stored { calls: decode_calls(words)?, name });
        rest = after;
    }
    Ok(streams)
}

fn name_words(name: &str) -> [u32; NAME_WORDS] {
    assert!(name.is_ascii() && name.len() <= 4 * NAME_WORDS, "no name for a stream: {name}");
    let byte = |at: usize| name.as_bytes().get(at).copied().unwrap_or(0);
    std::array::from_fn(|word| u32::from_le_bytes(std::array::from_fn(|i| byte(4 * word + i))))
}

fn name_text(words: &[u32]) -> String {
    let bytes = words.iter().flat_map(|word| word.to_le_bytes()).take_while(|byte| *byte != 0);
    bytes.map(char::from).collect()
}

impl Stored {
    /// The name, and a line after each call.
    pub fn call_lines(&self, digests: &mut Digests) -> Vec<String> {
        let mut lines = vec![self.name.clone()];
        let mut vpu = Vpu::new();
        for call in &self.calls {
            vpu.feed(call);
            lines.push(format!("0 {}", digests.line(&vpu)));
        }
        lines
    }

    /// The same, and the last line again after all words in one call, and word by word.
    pub fn lines(&self) -> Vec<String> {
        let words = self.calls.concat();
        let mut digests = Digests::default();
        let mut lines = self.call_lines(&mut digests);
        let ways: [(&str, Vec<&[u32]>); 2] = [("whole", vec![&words]), ("words", words.chunks(1).collect())];
        for (way, calls) in ways {
            let mut vpu = Vpu::new();
            calls.iter().for_each(|call| vpu.feed(call));
            lines.push(format!("{way} 0 {}", digests.line(&vpu)));
        }
        lines
    }
}
