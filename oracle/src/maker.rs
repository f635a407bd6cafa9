//! Makes commands whose result can mostly be seen: it remembers the camera and what was uploaded.

use crate::floats;
use crate::random::Random;
use crate::sprites::{Alpha, Sheet};
use crate::streams::{Command, Corner, Stream, Triangle};

#[derive(Clone, Copy)]
pub enum Camera {
    /// Three identity matrices.
    Fresh,
    Orthographic,
    Perspective,
}

pub struct Maker {
    pub random: Random,
    pub stream: Stream,
    pub textures: Vec<u32>,
    pub models: Vec<u32>,
    camera: Camera,
}

impl Maker {
    pub fn new(random: Random) -> Self {
        Self {
            random,
            stream: Stream::default(),
            textures: Vec::new(),
            models: Vec::new(),
            camera: Camera::Fresh,
        }
    }

    pub fn send(&mut self, command: Command) {
        self.stream.send(&command);
    }
}

/// Values.
impl Maker {
    pub fn colour(&mut self) -> u32 {
        match self.random.below(8) {
            0 => self.random.word(),
            1 => self.random.pick(&[0xffff_ffff, 0x8080_80ff, 0xff00_00ff, 0x0000_00ff]),
            _ => self.random.word() | 0xff,
        }
    }

    /// A place that the present camera mostly sees.
    pub fn point(&mut self) -> [f32; 3] {
        let [x, y, z] = self.random.floats(-1.0, 1.0);
        match self.camera {
            Camera::Fresh => [x, y, 0.5 + 0.5 * z],
            _ => [x, y, z],
        }
    }

    pub fn corner(&mut self, position: [f32; 3]) -> Corner {
        Corner {
            position,
            normal: self.random.floats(-1.0, 1.0),
            uv: self.random.floats(-0.25, 1.25),
            rgba: self.colour(),
        }
    }

    /// Sizes from less than a pixel to more than the screen.
    pub fn triangle(&mut self) -> Triangle {
        let size = self.random.pick(&[0.004, 0.05, 0.2, 0.2, 0.5, 0.5, 1.0, 2.5]);
        self.triangle_of_size(size)
    }

    pub fn triangle_of_size(&mut self, size: f32) -> Triangle {
        let centre = self.point();
        std::array::from_fn(|_| {
            let offset: [f32; 3] = self.random.floats(-size, size);
            self.corner([centre[0] + offset[0], centre[1] + offset[1], centre[2] + 0.25 * offset[2]])
        })
    }

    pub fn mode(&mut self) -> u32 {
        self.random.below(3)
    }
}

/// Settings.
impl Maker {
    pub fn set_camera(&mut self, camera: Camera) {
        self.camera = camera;
        let turned = floats::rotation(&mut self.random);
        let matrices = match camera {
            Camera::Fresh => [floats::identity(); 3],
            Camera::Orthographic => [turned, floats::identity(), floats::orthographic()],
            Camera::Perspective => {
                let back = self.random.float(-4.5, -2.5);
                let zoom = self.random.float(1.5, 3.0);
                [turned, floats::translation([0.0, 0.0, back]), floats::perspective(zoom, 0.5, 8.0)]
            }
        };
        self.set_matrices(matrices);
    }

    pub fn set_matrices(&mut self, matrices: [floats::Matrix; 3]) {
        for (index, matrix) in matrices.iter().enumerate() {
            self.send(Command::matrix(index as u32, matrix));
        }
    }

    pub fn any_camera(&mut self) {
        let camera = self.random.pick(&[
            Camera::Fresh,
            Camera::Orthographic,
            Camera::Perspective,
            Camera::Perspective,
        ]);
        self.set_camera(camera);
    }

    pub fn light(&mut self) -> Command {
        let limits = [0.4, 1.0, 0.8, 0.2];
        let terms: [f32; 15] = std::array::from_fn(|i| match limits.get(i / 3) {
            Some(limit) => self.random.float(0.0, *limit),
            None => self.random.float(-6.0, 6.0),
        });
        let switch = self.random.chance(80) as u32;
        Command::light(self.random.below(8), switch, &terms)
    }

    /// One setting at random: shading mode, lighting, a light, or the camera.
    pub fn any_setting(&mut self) {
        match self.random.below(4) {
            0 => {
                let mode = self.random.below(2);
                self.send(Command::shading_mode(mode));
            }
            1 => {
                let switch = self.random.below(2);
                self.send(Command::lighting(switch));
            }
            2 => {
                let light = self.light();
                self.send(light);
            }
            _ => self.any_camera(),
        }
    }

    /// Empties the depths, and often the plane, so that later draws are not all hidden.
    pub fn refresh(&mut self) {
        let flags = self.random.pick(&[2, 3, 3]);
        let rgba = self.colour();
        self.send(Command::clear(flags, rgba, 0));
    }
}

/// Uploads.
impl Maker {
    pub fn texture(&mut self, number: u32, width: u32, height: u32) -> Command {
        let count = (width * height).div_ceil(2);
        let texels: Vec<u32> = (0..count).map(|_| self.random.word() | 0x000f_000f).collect();
        Command::texture(number, width, height, &texels)
    }

    pub fn upload_texture(&mut self, number: u32, width: u32, height: u32) {
        let command = self.texture(number, width, height);
        self.send(command);
        remember(&mut self.textures, number);
    }

    /// A texture with alphas for sprites.
    pub fn upload_sheet(&mut self, sheet: Sheet, alpha: Alpha) {
        let command = sheet.upload(alpha, &mut self.random);
        self.send(command);
        remember(&mut self.textures, sheet.number);
    }

    pub fn upload_small_texture(&mut self, number: u32) {
        let (width, height) = (1 + self.random.below(9), 1 + self.random.below(9));
        self.upload_texture(number, width, height);
    }

    pub fn held_texture(&mut self) -> u32 {
        if self.textures.is_empty() {
            let number = self.random.below(8);
            self.upload_small_texture(number);
        }
        self.random.pick(&self.textures)
    }

    pub fn model(&mut self, number: u32, triangles: u32) -> Command {
        let records: Vec<(u32, Triangle)> =
            (0..triangles).map(|_| (self.held_texture(), self.triangle())).collect();
        Command::model(number, &records)
    }

    pub fn upload_model(&mut self, number: u32, triangles: u32) {
        let command = self.model(number, triangles);
        self.send(command);
        remember(&mut self.models, number);
    }

    pub fn held_model(&mut self) -> u32 {
        if self.models.is_empty() {
            let number = self.random.below(8);
            self.upload_model(number, 3);
        }
        self.random.pick(&self.models)
    }
}

fn remember(numbers: &mut Vec<u32>, number: u32) {
    if !numbers.contains(&number) {
        numbers.push(number);
    }
}

/// Draws.
impl Maker {
    pub fn flat(&mut self, corners: [[i32; 2]; 3]) -> Command {
        let depths = self.flat_depths();
        let corners = std::array::from_fn(|i| [corners[i][0], corners[i][1], depths[i]]);
        let shade = match self.random.below(4) {
            0 => self.random.pick(&[0, 1, 128, 255, 256, 300, u32::MAX]),
            _ => 64 + self.random.below(192),
        };
        Command::flat(corners, self.random.word(), shade)
    }

    fn flat_depths(&mut self) -> [i32; 3] {
        let near = self.random.pick(&[10, 1_000, 1_000_000]);
        match self.random.below(8) {
            0 => [self.random.pick(&[i32::MAX, i32::MAX - 1, i32::MIN, 0, -1]); 3],
            1 => std::array::from_fn(|_| self.random.word() as i32),
            2 => [self.random.between(-near, near); 3],
            _ => std::array::from_fn(|_| self.random.between(-near, near)),
        }
    }

    /// Corners around a place on the screen.
    pub fn flat_around(&mut self, size: i32) -> Command {
        let (x, y) = (self.random.between(0, 319), self.random.between(0, 239));
        let corners = std::array::from_fn(|_| {
            [x + self.random.between(-size, size), y + self.random.between(-size, size)]
        });
        self.flat(corners)
    }

    /// One of the four commands that take a triangle of floats.
    pub fn draw_of(&mut self, triangle: &Triangle) -> Command {
        match self.random.below(4) {
            0 => Command::transformed(triangle),
            1 => Command::transformed_with_normals(triangle),
            2 => Command::textured(self.held_texture(), self.mode(), triangle),
            _ => Command::textured_lit(self.held_texture(), self.mode(), triangle),
        }
    }

    pub fn any_draw(&mut self) -> Command {
        match self.random.below(6) {
            0 => {
                let size = self.random.pick(&[10, 40, 100]);
                self.flat_around(size)
            }
            1 => Command::draw_model(self.held_model(), self.mode()),
            _ => {
                let triangle = self.triangle();
                self.draw_of(&triangle)
            }
        }
    }

    pub fn send_draws(&mut self, count: u32) {
        for _ in 0..count {
            let command = self.any_draw();
            self.send(command);
        }
    }
}
