//! Cutting a stream into calls. However it is cut, the machine ends in the same state.

use crate::random::Random;
use crate::streams::Stream;

#[derive(Clone, Copy, Debug, PartialEq)]
pub enum Cut {
    Whole,
    BeforeHeaders,
    AfterHeaders,
    AroundHeaders,
    InsidePayloads,
    EmptyCalls,
    Anywhere,
    Words,
}

impl Cut {
    pub const ALL: [Cut; 8] = [
        Cut::Whole,
        Cut::BeforeHeaders,
        Cut::AfterHeaders,
        Cut::AroundHeaders,
        Cut::InsidePayloads,
        Cut::EmptyCalls,
        Cut::Anywhere,
        Cut::Words,
    ];

    pub fn named(name: &str) -> Result<Self, String> {
        let found = Cut::ALL.into_iter().find(|cut| cut.name() == name);
        found.ok_or(format!("no way of cutting {name:?}: {}", Cut::ALL.map(Cut::name).join(", ")))
    }

    pub fn name(self) -> &'static str {
        match self {
            Cut::Whole => "whole",
            Cut::BeforeHeaders => "before-headers",
            Cut::AfterHeaders => "after-headers",
            Cut::AroundHeaders => "around-headers",
            Cut::InsidePayloads => "inside-payloads",
            Cut::EmptyCalls => "empty-calls",
            Cut::Anywhere => "anywhere",
            Cut::Words => "words",
        }
    }

    /// For streams whose subject is not the cutting: mostly a call for each command.
    pub fn usual(random: &mut Random) -> Self {
        if random.chance(60) {
            Cut::BeforeHeaders
        } else {
            random.pick(&Cut::ALL[..7])
        }
    }

    fn places(self, stream: &Stream, random: &mut Random) -> Vec<usize> {
        let before = stream.headers.iter().copied();
        let after = stream.headers.iter().map(|at| at + 1);
        let end = stream.words.len();
        match self {
            Cut::Whole => vec![],
            Cut::BeforeHeaders => before.collect(),
            Cut::AfterHeaders => after.collect(),
            Cut::AroundHeaders => before.chain(after).collect(),
            Cut::InsidePayloads => inside_payloads(stream, random),
            Cut::EmptyCalls => before.flat_map(|at| vec![at; 1 + random.below(3) as usize]).collect(),
            Cut::Anywhere => {
                let count = random.below(2 + (end as u32 / 8).min(60));
                (0..count).map(|_| random.below(end as u32 + 1) as usize).collect()
            }
            Cut::Words => (0..end).collect(),
        }
    }

    pub fn apply(self, stream: &Stream, random: &mut Random) -> Vec<Vec<u32>> {
        cut_at(stream, self.places(stream, random))
    }
}

fn cut_at(stream: &Stream, mut places: Vec<usize>) -> Vec<Vec<u32>> {
    places.push(stream.words.len());
    places.sort();
    let mut start = 0;
    let mut calls = Vec::new();
    for place in places {
        let place = place.min(stream.words.len());
        calls.push(stream.words[start..place].to_vec());
        start = place;
    }
    calls
}

/// At most `most` calls, cut in any way at some of its places; a third of the streams have an empty call.
pub fn few_calls(stream: &Stream, most: usize, random: &mut Random) -> Vec<Vec<u32>> {
    let mut places = random.pick(&Cut::ALL[1..7]).places(stream, random);
    while places.len() + 2 > most {
        places.swap_remove(random.below(places.len() as u32) as usize);
    }
    if random.chance(33) {
        places.extend(places.first().copied().or(Some(0)));
    }
    cut_at(stream, places)
}

fn inside_payloads(stream: &Stream, random: &mut Random) -> Vec<usize> {
    let ends = stream.headers.iter().skip(1).copied().chain([stream.words.len()]);
    stream
        .headers
        .iter()
        .zip(ends)
        .filter(|(start, end)| *start + 2 < *end)
        .map(|(start, end)| start + 2 + random.below((end - start - 2) as u32) as usize)
        .collect()
}
