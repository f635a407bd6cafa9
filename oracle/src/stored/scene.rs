//! What the streams written by hand have in common: a scene under construction, and things to put into it.

use crate::replay::Stored;
use crate::streams::{Command, Corner, Stream, Triangle};

pub struct Scene {
    name: String,
    calls: Vec<Vec<u32>>,
    open: Stream,
}

impl Scene {
    pub fn new(name: &str) -> Self {
        Self { name: name.to_string(), calls: Vec::new(), open: Stream::default() }
    }

    pub fn then(mut self, command: Command) -> Self {
        self.open.send(&command);
        self
    }

    pub fn all(self, commands: impl IntoIterator<Item = Command>) -> Self {
        commands.into_iter().fold(self, Self::then)
    }

    pub fn words(mut self, words: &[u32]) -> Self {
        self.open.words.extend(words);
        self
    }

    /// Ends the call, so that a line shows the machine at this point.
    pub fn seen(mut self) -> Self {
        self.calls.push(std::mem::take(&mut self.open).words);
        self
    }

    /// The command, and a line after it.
    pub fn shows(self, command: Command) -> Self {
        self.then(command).seen()
    }

    pub fn end(self) -> Stored {
        assert!(self.open.words.is_empty(), "{}: words after the last line", self.name);
        Stored { name: self.name, calls: self.calls }
    }
}

/// The number of the texture and of the model that most scenes upload.
pub const HELD: u32 = 1;

/// Four texels with different colours and alphas.
pub fn texture() -> Command {
    Command::texture(HELD, 2, 2, &[0xf84f_0fcf, 0x48fb_ffff])
}

/// One texel for the whole triangle.
pub fn plain_texture(texel: u32) -> Command {
    Command::texture(HELD, 1, 1, &[texel << 16])
}

pub fn corner(position: [f32; 3], normal: [f32; 3], uv: [f32; 2], rgba: u32) -> Corner {
    Corner { position, normal, uv, rgba }
}

/// The middle of the screen at depths around `z`: three colours, normals that fan out, most of the texture.
pub fn wide(z: f32) -> Triangle {
    [
        corner([-0.8, -0.7, z], [-0.5, -0.5, 1.0], [0.05, 0.1], 0xf030_20ff),
        corner([0.9, -0.6, z + 0.125], [0.75, -0.25, 0.5], [0.95, 0.2], 0x40e0_50c0),
        corner([0.1, 0.8, z - 0.125], [0.0, 0.75, 0.5], [0.5, 0.9], 0x3060_f080),
    ]
}

pub fn coloured(mut triangle: Triangle, rgba: u32) -> Triangle {
    triangle.iter_mut().for_each(|corner| corner.rgba = rgba);
    triangle
}

pub fn at(mut triangle: Triangle, positions: [[f32; 3]; 3]) -> Triangle {
    for (corner, position) in triangle.iter_mut().zip(positions) {
        corner.position = position;
    }
    triangle
}

/// A matrix 2 that takes the corners (1,0,0), (0,1,0) and (0,0,1) to these, if the other two are the identity.
pub fn columns(corners: [[f32; 4]; 3]) -> Command {
    let matrix = std::array::from_fn(|i| if i % 4 < 3 { corners[i % 4][i / 4] } else { 0.0 });
    Command::matrix(2, &matrix)
}

/// The triangle whose corners `columns` takes to where they are wanted.
pub fn of_columns(triangle: Triangle) -> Triangle {
    at(triangle, [[1.0, 0.0, 0.0], [0.0, 1.0, 0.0], [0.0, 0.0, 1.0]])
}

/// A light whose terms (ambient, diffuse, specular, emission) are the same in all channels.
pub fn light(index: u32, terms: [f32; 4], position: [f32; 3]) -> Command {
    let grey = terms.map(|term| [term; 3]);
    let floats = [grey.concat(), position.to_vec()].concat();
    Command::light(index, 1, &std::array::from_fn(|i| floats[i]))
}

pub fn clear(rgba: u32) -> Command {
    Command::clear(3, rgba, 0)
}

pub fn model(triangles: &[Triangle]) -> Command {
    let records: Vec<(u32, Triangle)> = triangles.iter().map(|triangle| (HELD, *triangle)).collect();
    Command::model(HELD, &records)
}

/// The draws of floats; each can take the same triangle. 1B brings a model of its own.
pub fn draw(opcode: u8, mode: u32, triangle: &Triangle) -> Vec<Command> {
    vec![match opcode {
        0x14 => Command::transformed(triangle),
        0x16 => Command::transformed_with_normals(triangle),
        0x18 => Command::textured(HELD, mode, triangle),
        0x19 => Command::textured_lit(HELD, mode, triangle),
        _ => return vec![model(&[*triangle]), Command::draw_model(HELD, mode)],
    }]
}
