//! A stream under construction: one function for each command, in the order of the payload's words.

use crate::original::Vpu;

#[derive(Clone, Copy)]
pub struct Corner {
    pub position: [f32; 3],
    pub normal: [f32; 3],
    pub uv: [f32; 2],
    pub rgba: u32,
}

impl Corner {
    fn plain(&self) -> Vec<u32> {
        [to_bits(&self.position), vec![self.rgba]].concat()
    }

    fn with_normal(&self) -> Vec<u32> {
        [to_bits(&self.position), to_bits(&self.normal), vec![self.rgba]].concat()
    }

    fn textured(&self) -> Vec<u32> {
        [to_bits(&self.position), to_bits(&self.uv), vec![self.rgba]].concat()
    }

    pub fn textured_lit(&self) -> Vec<u32> {
        [to_bits(&self.position), to_bits(&self.normal), to_bits(&self.uv), vec![self.rgba]].concat()
    }
}

pub type Triangle = [Corner; 3];

/// A command that is not yet framed.
#[derive(Clone)]
pub struct Command {
    pub opcode: u8,
    pub payload: Vec<u32>,
}

fn to_bits(floats: &[f32]) -> Vec<u32> {
    floats.iter().map(|float| float.to_bits()).collect()
}

fn payload(before: &[u32], floats: &[f32]) -> Vec<u32> {
    [before, &to_bits(floats)].concat()
}

pub fn header(opcode: u8, count: u32) -> u32 {
    (opcode as u32) << 24 | count
}

impl Command {
    fn new(opcode: u8, payload: Vec<u32>) -> Self {
        Self { opcode, payload }
    }

    fn of_corners(opcode: u8, before: &[u32], triangle: &Triangle, words: fn(&Corner) -> Vec<u32>) -> Self {
        let corners: Vec<u32> = triangle.iter().flat_map(words).collect();
        Self::new(opcode, [before, &corners].concat())
    }

    pub fn shading_mode(mode: u32) -> Self {
        Self::new(0x01, vec![0, mode])
    }

    pub fn lighting(switch: u32) -> Self {
        Self::new(0x01, vec![1, switch])
    }

    pub fn matrix(index: u32, matrix: &[f32; 16]) -> Self {
        Self::new(0x02, payload(&[index], matrix))
    }

    pub fn clear(flags: u32, rgba: u32, unused: u32) -> Self {
        Self::new(0x04, vec![flags, rgba, unused])
    }

    /// Each place is x and y, the size is width and height.
    pub fn sprite(number: u32, source: [u32; 2], size: [u32; 2], target: [i32; 2]) -> Self {
        let target = target.map(|place| place as u32);
        Self::new(0x10, [&[number], &source[..], &size, &target].concat())
    }

    pub fn flat(corners: [[i32; 3]; 3], rgb: u32, shade: u32) -> Self {
        let mut words: Vec<u32> = corners.concat().iter().map(|n| *n as u32).collect();
        words.extend([rgb, shade]);
        Self::new(0x12, words)
    }

    pub fn transformed(triangle: &Triangle) -> Self {
        Self::of_corners(0x14, &[], triangle, Corner::plain)
    }

    pub fn light(index: u32, switch: u32, terms: &[f32; 15]) -> Self {
        Self::new(0x15, payload(&[index, switch], terms))
    }

    pub fn transformed_with_normals(triangle: &Triangle) -> Self {
        Self::of_corners(0x16, &[], triangle, Corner::with_normal)
    }

    pub fn texture(number: u32, width: u32, height: u32, texels: &[u32]) -> Self {
        Self::new(0x17, [&[number, width, height], texels].concat())
    }

    pub fn textured(number: u32, mode: u32, triangle: &Triangle) -> Self {
        Self::of_corners(0x18, &[number, mode], triangle, Corner::textured)
    }

    pub fn textured_lit(number: u32, mode: u32, triangle: &Triangle) -> Self {
        Self::of_corners(0x19, &[number, mode], triangle, Corner::textured_lit)
    }

    /// Each record is a texture number and a triangle.
    pub fn model(number: u32, records: &[(u32, Triangle)]) -> Self {
        let mut words = vec![number, records.len() as u32];
        for (texture, triangle) in records {
            words.push(*texture);
            words.extend(triangle.iter().flat_map(Corner::textured_lit));
        }
        Self::new(0x1a, words)
    }

    pub fn draw_model(number: u32, mode: u32) -> Self {
        Self::new(0x1b, vec![number, mode])
    }
}

#[derive(Default)]
pub struct Stream {
    pub words: Vec<u32>,
    /// Where the builder put a header; a damaged stream may be framed differently.
    pub headers: Vec<usize>,
}

impl Stream {
    /// The stream of these words, with the headers where the original sees them.
    pub fn framed(words: Vec<u32>) -> Self {
        let mut vpu = Vpu::new();
        let mut headers = Vec::new();
        for (at, word) in words.iter().enumerate() {
            if vpu.begun().is_none() {
                headers.push(at);
            }
            vpu.feed(&[*word]);
        }
        Self { words, headers }
    }

    pub fn send(&mut self, command: &Command) {
        self.send_header(header(command.opcode, command.payload.len() as u32));
        self.words.extend(&command.payload);
    }

    pub fn send_header(&mut self, word: u32) {
        self.headers.push(self.words.len());
        self.words.push(word);
    }

    /// Puts a command before the header of this number.
    pub fn insert(&mut self, place: usize, command: &Command) {
        let mut inserted = Self::default();
        inserted.send(command);
        let (at, by) = (self.headers[place], inserted.words.len());
        self.words.splice(at..at, inserted.words);
        self.headers.insert(place, at);
        self.headers[place + 1..].iter_mut().for_each(|header| *header += by);
    }

    pub fn cut_short(&mut self, words: usize) {
        self.words.truncate(self.words.len().saturating_sub(words));
        self.headers.retain(|at| *at < self.words.len());
    }
}
