//! The port beside its judge: both are fed the same calls and compared after each.

use crate::port::Port;
use vpu_oracle::digests::bits;
use vpu_oracle::judge::{Judge, Start};
use vpu_oracle::original::Vpu;
use vpu_oracle::streams::Stream;
use vpu_oracle::watch::Watch;

/// Pixels that are read through the interface at the end of a stream; the last two are off the screen.
const PIXELS: [(usize, usize); 6] = [(0, 0), (319, 239), (160, 120), (161, 77), (320, 0), (0, 240)];

pub struct Sides {
    pub port: Port,
    pub judge: Judge,
}

impl Sides {
    /// Neither is reset yet.
    pub fn new() -> Self {
        Self { port: Port::new(), judge: Judge::new() }
    }

    /// Resets both; returns what differs afterwards, if anything.
    pub fn reset(&mut self, start: Start) -> Option<String> {
        self.judge.reset(start);
        other_answer(0, self.port.reset(start)).or_else(|| self.difference())
    }

    /// Feeds both; returns an answer other than 0, if there is one.
    pub fn prepare(&mut self, words: &[u32], watch: &mut Watch) -> Option<String> {
        let misread = self.judge.feed(words, watch);
        other_answer(0, self.port.feed(words)).or(misread)
    }

    /// Feeds both; returns what differs afterwards, if anything.
    pub fn feed(&mut self, words: &[u32], watch: &mut Watch) -> Option<String> {
        self.prepare(words, watch).or_else(|| self.difference())
    }

    /// What differs in anything but the command area.
    pub fn difference(&self) -> Option<String> {
        let (port, judge) = (&self.port, &self.judge);
        if port.state.status != judge.status {
            return Some(format!("status {:08x}, not {:08x}", port.state.status, judge.status));
        }
        other_picture(port, &judge.original)
            .or_else(|| first_other("state", &port.state.words(), &judge.state_words(), |word| *word))
            .or_else(|| self.other_store(0, "texture store"))
            .or_else(|| self.other_store(1, "model store"))
            .or_else(|| (!port.stayed_within()).then_some("written behind what is lent".to_string()))
    }

    fn other_store(&self, place: usize, name: &str) -> Option<String> {
        let list = [&self.judge.textures, &self.judge.models][place];
        list.first_other(self.port.store(place)).map(|word| format!("{name}, word {word}"))
    }

    /// What differs in the command area, which is large and is looked at less often.
    pub fn other_area(&self) -> Option<String> {
        first_other("command area", self.port.command(), &self.judge.area, |word| *word)
    }

    /// What differs in the pixels that are read through the interface.
    pub fn other_pixel(&self) -> Option<String> {
        PIXELS.iter().find_map(|(x, y)| {
            let expected = (0, self.judge.original.pixel(*x, *y));
            let got = self.port.try_pixel(self.port.plane().len(), *x, *y);
            (got != expected).then(|| format!("pixel {x}, {y}: {got:?}, not {expected:?}"))
        })
    }
}

pub fn other_answer(expected: u32, answer: u32) -> Option<String> {
    (answer != expected).then(|| format!("the answer is {answer}, not {expected}"))
}

/// What differs in plane or depths.
pub fn other_picture(port: &Port, original: &Vpu) -> Option<String> {
    first_other("plane", port.plane(), original.plane(), |byte| *byte as u32)
        .or_else(|| first_other("depth", port.depth(), original.depth(), |depth| *depth as u32))
        .or_else(|| first_other("float depth", port.depth_f32(), original.depth_f32(), |depth| bits(*depth)))
}

/// The first place where two memories differ. Nearly always there is none, so this is tested first, without a branch.
fn first_other<T>(name: &str, port: &[T], judge: &[T], word: impl Fn(&T) -> u32) -> Option<String> {
    let pairs = || port.iter().zip(judge).map(|(port, judge)| [word(port), word(judge)]);
    if pairs().fold(0, |other, [port, judge]| other | (port ^ judge)) == 0 {
        return None;
    }
    let (place, [port, judge]) = pairs().enumerate().find(|(_, [port, judge])| port != judge)?;
    Some(format!("{name} {place}: {port:08x}, not {judge:08x}"))
}

/// Feeds these calls after a reset, up to the first difference. Returns the place of its call, and what it is.
pub fn run(
    sides: &mut Sides,
    start: Start,
    calls: &[Vec<u32>],
    watch: &mut Watch,
) -> Option<(usize, String)> {
    if let Some(what) = sides.reset(start) {
        return Some((0, what));
    }
    for (place, call) in calls.iter().enumerate() {
        if let Some(what) = sides.feed(call, watch) {
            return Some((place, what));
        }
    }
    sides.other_area().or_else(|| sides.other_pixel()).map(|what| (calls.len().saturating_sub(1), what))
}

/// Whether these words, fed in one call, make a difference.
fn fails(sides: &mut Sides, start: Start, words: Vec<u32>) -> bool {
    run(sides, start, &[words], &mut Watch::default()).is_some()
}

/// The calls up to the first difference. If one call shows it too: that call, without the commands that do not matter.
pub fn smallest(sides: &mut Sides, start: Start, calls: &[Vec<u32>]) -> Vec<Vec<u32>> {
    if !fails(sides, start, calls.concat()) {
        return calls.to_vec();
    }
    let stream = Stream::framed(calls.concat());
    let ends = stream.headers.iter().skip(1).copied().chain([stream.words.len()]);
    let mut commands: Vec<&[u32]> =
        stream.headers.iter().zip(ends).map(|(start, end)| &stream.words[*start..end]).collect();
    for place in (0..commands.len()).rev() {
        let left_out = commands.remove(place);
        if !fails(sides, start, commands.concat()) {
            commands.insert(place, left_out);
        }
    }
    vec![commands.concat()]
}
