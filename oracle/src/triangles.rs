//! Draws triangles with the proved functions and with the original, in one process, and compares plane and depths,
//! every NaN as one value. `triangles [--count N] [--seed S] [--only KIND]`; linked with the archive of the crate
//! `triangle_c`.

#[allow(dead_code)]
mod arguments;

use arguments::Arguments;
use vpu_oracle::digests::bits;
use vpu_oracle::original::Vpu;
use vpu_oracle::random::Random;
use vpu_oracle::shapes::{out_of_reach, textures, Kind, Shape, Texture, Triangle, KINDS};
use vpu_oracle::words::word_line;

/// Triangles that are drawn on the same buffers before these are cleared.
const BATCH: u64 = 24;

const ROW: usize = 320;
const PIXELS: usize = 76_800;

// The exports of `crates/triangle_c_c/src/lib.rt`: a slice is a pointer and a length.
extern "C" {
    fn triangle_flat(
        plane: *mut u8,
        plane_length: usize,
        depth: *mut i32,
        depth_length: usize,
        words: *const u32,
        length: usize,
    ) -> u32;
    fn triangle_transformed(
        plane: *mut u8,
        plane_length: usize,
        depth: *mut f32,
        depth_length: usize,
        corners: *const f32,
        corners_length: usize,
        color: *const f32,
        color_length: usize,
    );
    fn triangle_textured(
        plane: *mut u8,
        plane_length: usize,
        depth: *mut f32,
        depth_length: usize,
        corners: *const f32,
        corners_length: usize,
        width: u32,
        height: u32,
        texels: *const u32,
        texels_length: usize,
        mode: u32,
        color: *const f32,
        color_length: usize,
    );
}

/// The buffers that the port draws on.
struct Port {
    plane: Vec<u8>,
    depth: Vec<i32>,
    depth_f32: Vec<f32>,
}

impl Port {
    fn new() -> Self {
        Self { plane: vec![0; 4 * PIXELS], depth: vec![i32::MAX; PIXELS], depth_f32: vec![1.0; PIXELS] }
    }

    /// Returns what `triangle_flat` answers, 0 for the others. All lengths are those that the contracts ask for.
    fn draw(&mut self, triangle: &Triangle, kind: Kind, texture: &Texture) -> u32 {
        match triangle {
            Triangle::Words(words) => self.draw_flat(words),
            Triangle::Floats(shape) => {
                match kind {
                    Kind::Textured(mode) => self.draw_textured(shape, texture, mode),
                    _ => self.draw_transformed(shape, kind == Kind::Plain),
                }
                0
            }
        }
    }

    fn draw_flat(&mut self, words: &[u32; 11]) -> u32 {
        let (plane, depth) = (self.plane.as_mut_ptr(), self.depth.as_mut_ptr());
        unsafe { triangle_flat(plane, 4 * PIXELS, depth, PIXELS, words.as_ptr(), 11) }
    }

    fn draw_transformed(&mut self, shape: &Shape, flat: bool) {
        let (plane, depth) = (self.plane.as_mut_ptr(), self.depth_f32.as_mut_ptr());
        let corners = shape.corners.as_ptr().cast();
        let length = if flat { 4 } else { 0 };
        unsafe {
            triangle_transformed(plane, 4 * PIXELS, depth, PIXELS, corners, 48, shape.color.as_ptr(), length)
        }
    }

    fn draw_textured(&mut self, shape: &Shape, texture: &Texture, mode: u32) {
        let (plane, depth) = (self.plane.as_mut_ptr(), self.depth_f32.as_mut_ptr());
        let corners = shape.corners.as_ptr().cast();
        let (width, height) = (texture.width as u32, texture.height as u32);
        let (words, length, color) = (texture.words.as_ptr(), texture.words.len(), shape.color.as_ptr());
        unsafe {
            triangle_textured(
                plane,
                4 * PIXELS,
                depth,
                PIXELS,
                corners,
                48,
                width,
                height,
                words,
                length,
                mode,
                color,
                4,
            )
        }
    }
}

/// Both sides, and the plane as it was before the last triangle.
struct Sides {
    port: Port,
    original: Vpu,
    before: Vec<u8>,
}

impl Sides {
    fn new() -> Self {
        let mut sides = Self { port: Port::new(), original: Vpu::new(), before: vec![0; 4 * PIXELS] };
        sides.clear(0);
        sides
    }

    fn clear(&mut self, byte: u8) {
        for plane in [&mut self.port.plane[..], &mut self.before, self.original.plane_mut()] {
            plane.fill(byte);
        }
        for depth in [&mut self.port.depth[..], self.original.depth_mut()] {
            depth.fill(i32::MAX);
        }
        for depth in [&mut self.port.depth_f32[..], self.original.depth_f32_mut()] {
            depth.fill(1.0);
        }
    }

    fn same(&self, first: usize, past: usize) -> bool {
        let (cells, bytes) = (first * ROW..past * ROW, 4 * first * ROW..4 * past * ROW);
        let mut floats =
            self.port.depth_f32[cells.clone()].iter().zip(&self.original.depth_f32()[cells.clone()]);
        self.port.plane[bytes.clone()] == self.original.plane()[bytes]
            && self.port.depth[cells.clone()] == self.original.depth()[cells]
            && floats.all(|(port, original)| bits(*port) == bits(*original))
    }

    /// Whether the original's plane has changed in these rows since this was last asked.
    fn changed(&mut self, first: usize, past: usize) -> bool {
        let bytes = 4 * first * ROW..4 * past * ROW;
        let changed = self.original.plane()[bytes.clone()] != self.before[bytes.clone()];
        if changed {
            self.before[bytes.clone()].copy_from_slice(&self.original.plane()[bytes]);
        }
        changed
    }
}

/// What was seen of one kind.
#[derive(Default)]
struct Seen {
    changed: u64,
    refused: u64,
    differences: u64,
    first: String,
}

impl Seen {
    fn differs(&mut self, index: u64, triangle: &Triangle, texture: &Texture) {
        self.differences += 1;
        if self.differences == 1 {
            let (width, height) = (texture.width, texture.height);
            let words = word_line(&triangle.words());
            self.first = format!("  triangle {index}, texture {width} by {height}\n  {words}\n");
        }
    }
}

/// The large textures are the last ones of the list and are taken less often.
fn texture_for(textures: &[Texture], kind: Kind, index: u64) -> &Texture {
    let random = &mut Random::named("texture for", 0, index);
    match kind {
        Kind::Textured(_) if random.chance(10) => &textures[random.below(textures.len() as u32) as usize],
        Kind::Textured(_) => &textures[random.below(15) as usize],
        _ => &textures[0],
    }
}

/// After each triangle the rows that it can touch are compared, which finds the triangle that differs. At the end of each
/// batch everything is compared, which finds what was written anywhere else. After a difference both sides are cleared.
fn compare(kind: Kind, seed: u64, count: u64, textures: &[Texture]) -> Seen {
    let mut sides = Sides::new();
    let mut seen = Seen::default();
    for index in 0..count {
        let triangle = Triangle::new(kind, seed, index);
        let texture = texture_for(textures, kind, index);
        let refused = match &triangle {
            Triangle::Words(words) => out_of_reach(words),
            Triangle::Floats(_) => None,
        };
        triangle.draw(&mut sides.original, kind, texture);
        let answer = sides.port.draw(&triangle, kind, texture);
        let (first, past) = if refused.is_some() { (0, 0) } else { triangle.rows() };
        let last = index % BATCH == BATCH - 1 || index == count - 1;
        let same = sides.same(first, past) && (!last || sides.same(0, 240));
        seen.changed += sides.changed(first, past) as u64;
        seen.refused += refused.is_some() as u64;
        if !same || answer != refused.map_or(0, |at| at as u32 + 1) {
            seen.differs(index, &triangle, texture);
        }
        if last || !same {
            sides.clear((index / BATCH % 251) as u8);
        }
    }
    seen
}

fn chosen<'a>(arguments: &'a Arguments) -> impl Iterator<Item = (&'static str, Kind)> + 'a {
    KINDS.into_iter().filter(|(name, _)| arguments.option("only").is_none_or(|only| only == *name))
}

fn run_compare(arguments: &Arguments) -> Result<bool, String> {
    let count = arguments.number("count", 1_000_000)?;
    let seed = arguments.number("seed", 1)?;
    let textures = textures(seed);
    let mut agreed = true;
    for (name, kind) in chosen(arguments) {
        let Seen { changed, refused, differences, first } = compare(kind, seed, count, &textures);
        print!("{name:16} {count:8} triangles, {changed:7} changed a pixel, {refused:6} refused, ");
        print!("{differences} differences\n{first}");
        agreed &= differences == 0;
        if kind != Kind::Beyond && changed * 2 < count {
            println!("  fewer than half changed a pixel");
            agreed = false;
        }
    }
    Ok(agreed)
}

fn run() -> Result<bool, String> {
    let texts: Vec<String> = std::env::args().skip(1).collect();
    let arguments = Arguments::parse(&texts)?;
    arguments.expect(0, &["count", "seed", "only"])?;
    run_compare(&arguments)
}

fn main() {
    match run() {
        Ok(true) => (),
        Ok(false) => std::process::exit(1),
        Err(message) => {
            eprintln!("triangles: {message}");
            std::process::exit(1);
        }
    }
}
