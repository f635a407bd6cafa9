//! What was seen to differ, and the shortest stream that shows it.

use crate::sides::{smallest, Sides};
use vpu_oracle::digests::little_endian;
use vpu_oracle::judge::Start;
use vpu_oracle::words::encode_calls;

#[derive(Default)]
pub struct Differences {
    pub count: u64,
    shortest: Vec<Vec<u32>>,
    text: String,
}

impl Differences {
    /// `calls` are those from the reset to the difference. The sides are used to make them fewer.
    pub fn add(&mut self, sides: &mut Sides, start: Start, calls: &[Vec<u32>], what: String) {
        self.count += 1;
        if self.count > 20 {
            return;
        }
        let calls = smallest(sides, start, calls);
        if self.count == 1 || encode_calls(&calls).len() < encode_calls(&self.shortest).len() {
            let Start { stores: [textures, models], status } = start;
            self.shortest = calls;
            self.text =
                format!("{what} (stores of {textures} and {models} words, status {status:08x} before)");
        }
    }

    /// Returns whether there was none. The shortest stream goes to the file.
    pub fn report(&self, file: &str) -> Result<bool, String> {
        if self.count > 0 {
            let bytes = little_endian(&encode_calls(&self.shortest));
            std::fs::write(file, bytes).map_err(|error| format!("{file}: {error}"))?;
            println!("  {}\n  a stream that shows a difference: {file}", self.text);
        }
        Ok(self.count == 0)
    }
}
