//! A host in Rust: draws a badge, a portrait and a stat plate, and writes the plane as a PAM picture with alpha,
//! as a keyer wants it.
//!   host PICTURE [WORDS]
//! WORDS gets the words that were sent, call after call, each a count and then that many words.
//! `examples/host.c` draws the same scene with the same words.

#[allow(dead_code)]
mod vpu;

use vpu::{Refused, Vpu, HEIGHT, WIDTH};

// ---- words ----

/// Commands under construction: a header, then its payload.
#[derive(Default)]
struct Stream {
    words: Vec<u32>,
}

impl Stream {
    fn command(&mut self, opcode: u32, payload: &[u32]) {
        self.words.push(opcode << 24 | payload.len() as u32);
        self.words.extend(payload);
    }

    fn clear(&mut self, rgba: u32) {
        self.command(0x04, &[3, rgba, 0]);
    }

    fn lighting(&mut self, on: u32) {
        self.command(0x01, &[1, on]);
    }

    fn matrix(&mut self, number: u32, cells: [f32; 16]) {
        self.command(0x02, &[&[number][..], &cells.map(f32::to_bits)].concat());
    }

    fn light(&mut self, number: u32, terms: [f32; 15]) {
        self.command(0x15, &[&[number, 1][..], &terms.map(f32::to_bits)].concat());
    }

    fn flat(&mut self, corners: [Pixel; 3], ink: Ink) {
        let mut payload: Vec<u32> = Vec::new();
        for (x, y) in corners {
            payload.extend([x as u32, y as u32, ink.layer as u32]);
        }
        payload.extend([ink.rgb, ink.shade]);
        self.command(0x12, &payload);
    }

    /// Texels are RGBA, four bits each; two to a word, the first in the high half.
    fn texture(&mut self, number: u32, width: i32, height: i32, texel: fn(i32, i32) -> u32) {
        let texels: Vec<u32> = (0..width * height).map(|i| texel(i % width, i / width)).collect();
        let mut payload = vec![number, width as u32, height as u32];
        payload.extend(texels.chunks(2).map(|pair| pair[0] << 16 | pair.get(1).copied().unwrap_or(0)));
        self.command(0x17, &payload);
    }
}

// ---- flat shapes, in pixels ----

type Pixel = (i32, i32);

/// One depth for all corners: a lower layer number is nearer.
#[derive(Clone, Copy)]
struct Ink {
    layer: i32,
    rgb: u32,
    shade: u32,
}

fn ink(layer: i32, rgb: u32, shade: u32) -> Ink {
    Ink { layer, rgb, shade }
}

impl Stream {
    /// Four corners in order around the shape.
    fn quad(&mut self, [a, b, c, d]: [Pixel; 4], ink: Ink) {
        self.flat([a, b, c], ink);
        self.flat([a, c, d], ink);
    }

    /// A box whose right side leans by so many pixels.
    fn leaning(&mut self, (left, top): Pixel, (right, bottom): Pixel, lean: i32, ink: Ink) {
        self.quad([(left, top), (right, top), (right + lean, bottom), (left, bottom)], ink);
    }

    /// Seven segments on 7 by 12 pixels, from the top one clockwise; the last is the middle one.
    fn digit(&mut self, x: i32, y: i32, value: usize, ink: Ink) {
        const LIT: [i32; 10] = [0x3f, 0x06, 0x5b, 0x4f, 0x66, 0x6d, 0x7d, 0x07, 0x7f, 0x6f];
        const AT: [[i32; 4]; 7] = [
            [0, 0, 6, 1],
            [5, 0, 6, 6],
            [5, 5, 6, 11],
            [0, 10, 6, 11],
            [0, 5, 1, 11],
            [0, 0, 1, 6],
            [0, 5, 6, 6],
        ];
        for (i, [left, top, right, bottom]) in AT.into_iter().enumerate() {
            if LIT[value] >> i & 1 == 1 {
                self.leaning((x + left, y + top), (x + right, y + bottom), 0, ink);
            }
        }
    }

    fn number(&mut self, x: i32, y: i32, value: usize, ink: Ink) {
        self.digit(x, y, value / 10, ink);
        self.digit(x + 10, y, value % 10, ink);
    }
}

// ---- the stat plate ----

fn bar(s: &mut Stream, y: i32, value: i32, rgb: u32) {
    let end = 128 + value * 130 / 100;
    s.flat([(112, y), (112, y + 11), (120, y + 5)], ink(30, rgb, 255));
    s.leaning((128, y), (258, y + 11), 3, ink(40, 0x2a3a66, 255));
    s.leaning((128, y), (end, y + 11), 3, ink(30, rgb, 255));
    s.leaning((128, y + 8), (end, y + 11), 3, ink(20, rgb, 190));
    s.number(274, y, value as usize, ink(20, 0xf4f6ff, 255));
}

fn plate(s: &mut Stream) {
    s.leaning((104, 148), (300, 231), 12, ink(60, 0x101c3c, 255));
    s.leaning((104, 148), (300, 151), 1, ink(50, 0xe0b040, 255));
    s.leaning((104, 126), (190, 147), 10, ink(60, 0xb01c34, 255));
    s.number(114, 131, 10, ink(50, 0xffffff, 255));
    for i in 0..4 {
        let shade = if i < 3 { 255 } else { 90 };
        s.leaning((144 + 11 * i, 133), (150 + 11 * i, 141), 3, ink(50, 0xe0b040, shade));
    }
    bar(s, 162, 87, 0x34c46c);
    bar(s, 184, 64, 0xf0a028);
    bar(s, 206, 91, 0x3c9cf4);
}

// ---- the portrait ----

fn in_ellipse(x: i32, y: i32, (cx, cy): Pixel, rx: i32, ry: i32) -> bool {
    let (dx, dy) = ((x - cx) * ry, (y - cy) * rx);
    dx * dx + dy * dy < rx * rx * ry * ry
}

fn face(x: i32, y: i32) -> u32 {
    if in_ellipse(x, y, (28, 45), 2, 2) || in_ellipse(x, y, (44, 45), 2, 2) {
        0x134f
    } else if ((24..=32).contains(&x) || (40..=48).contains(&x)) && (39..=40).contains(&y) {
        0x421f
    } else if in_ellipse(x, y, (36, 60), 6, 1) {
        0xa44f
    } else if (35..=37).contains(&x) && (46..=53).contains(&y) || x + y / 4 > 56 {
        0xd96f
    } else {
        0xeb8f
    }
}

fn shirt(x: i32, y: i32) -> u32 {
    let beside = (x - 36).abs();
    if beside + 66 < y && beside + 72 > y && y < 84 {
        0xffff
    } else if x / 6 % 2 == 1 {
        0xc24f
    } else {
        0x813f
    }
}

fn portrait_texel(x: i32, y: i32) -> u32 {
    if y < 36 && in_ellipse(x, y, (36, 36), 20, 24) {
        return if x % 5 == 0 { 0x532f } else { 0x421f };
    }
    if in_ellipse(x, y, (36, 46), 17, 24) {
        return face(x, y);
    }
    if in_ellipse(x, y, (18, 47), 3, 5) || in_ellipse(x, y, (54, 47), 3, 5) {
        return 0xd96f;
    }
    if in_ellipse(x, y, (36, 104), 35, 36) {
        return if y < 76 && (30..=42).contains(&x) { 0xc85f } else { shirt(x, y) };
    }
    if (29..=43).contains(&x) && y > 60 && y < 76 {
        return 0xc85f;
    }
    0x100f | (2 + y as u32 / 20) << 8 | (5 + y as u32 / 12) << 4
}

/// A frame of four bars that meet at their corners, light from above.
fn frame(s: &mut Stream, (left, top): Pixel, (right, bottom): Pixel, wide: i32) {
    let around = |left, top, right, bottom| [(left, top), (right, top), (right, bottom), (left, bottom)];
    let out = around(left, top, right, bottom);
    let inner = around(left + wide, top + wide, right - wide, bottom - wide);
    for (side, shade) in [255, 150, 120, 215].into_iter().enumerate() {
        let next = (side + 1) % 4;
        s.quad([out[side], out[next], inner[next], inner[side]], ink(50, 0xe0b040, shade));
    }
}

/// A corner at a pixel's corner, for identity matrices.
fn textured_corner(x: f32, y: f32, u: f32, v: f32) -> [u32; 6] {
    let [x, y, z, u, v] = [x / 160.0 - 1.0, 1.0 - y / 120.0, 0.5, u, v].map(f32::to_bits);
    [x, y, z, u, v, 0xffff_ffff]
}

fn picture(s: &mut Stream, texture: u32, (left, top): (f32, f32), (right, bottom): (f32, f32)) {
    let first = textured_corner(left, top, 0.0, 0.0);
    let last = textured_corner(right, bottom, 1.0, 1.0);
    let above = textured_corner(right, top, 1.0, 0.0);
    let below = textured_corner(left, bottom, 0.0, 1.0);
    for corners in [[first, above, last], [first, last, below]] {
        s.command(0x18, &[&[texture, 0][..], &corners.concat()].concat());
    }
}

fn portrait(s: &mut Stream) {
    s.texture(3, 72, 96, portrait_texel);
    frame(s, (12, 124), (96, 232), 6);
    picture(s, 3, (18.0, 130.0), (90.0, 226.0));
}

// ---- the badge: a shield with a raised rim, lit ----

// Numbers that differ in their top bit are different textures.
const RIM: u32 = 0x0000_0007;
const FIELD: u32 = 0x8000_0007;
const BADGE: u32 = 1;

const OUTLINE: [(f32, f32); 10] = [
    (0.0, 0.875),
    (-0.5, 1.0),
    (-0.875, 0.8125),
    (-0.875, 0.1875),
    (-0.625, -0.4375),
    (0.0, -1.0),
    (0.625, -0.4375),
    (0.875, 0.1875),
    (0.875, 0.8125),
    (0.5, 1.0),
];

fn rim_texel(x: i32, y: i32) -> u32 {
    if (x + y) % 4 < 2 {
        0xeb4f
    } else {
        0xfc6f
    }
}

fn field_texel(x: i32, y: i32) -> u32 {
    if in_ellipse(x, y, (16, 16), 5, 5) {
        0xd23f
    } else if in_ellipse(x, y, (16, 16), 7, 7) || (x - y).abs() < 5 {
        0xffff
    } else if x > y {
        0x25bf
    } else {
        0x148f
    }
}

/// Position, normal, texture coordinates, colour.
fn model_corner((x, y): (f32, f32), scale: f32, z: f32, normal_z: f32) -> Vec<u32> {
    let (x, y) = (x * scale, y * scale);
    let floats = [x, y, z, x, y, normal_z, 0.5 + 0.5 * x, 0.5 - 0.5 * y];
    let mut words = floats.map(f32::to_bits).to_vec();
    words.push(0xffff_ffff);
    words
}

fn shield(s: &mut Stream) {
    let mut payload = vec![BADGE, 3 * OUTLINE.len() as u32];
    let mut triangle =
        |texture: u32, a: &[u32], b: &[u32], c: &[u32]| payload.extend([&[texture][..], a, b, c].concat());
    for (i, here) in OUTLINE.into_iter().enumerate() {
        let next = OUTLINE[(i + 1) % OUTLINE.len()];
        let low = |at| model_corner(at, 1.0, 0.0, 0.5);
        let high = |at| model_corner(at, 0.8125, 0.25, 1.5);
        triangle(RIM, &low(here), &low(next), &high(next));
        triangle(RIM, &low(here), &high(next), &high(here));
        triangle(FIELD, &high(here), &high(next), &model_corner((0.0, 0.0), 1.0, 0.375, 1.0));
    }
    s.command(0x1a, &payload);
}

fn badge(s: &mut Stream) {
    s.texture(RIM, 8, 8, rim_texel);
    s.texture(FIELD, 32, 32, field_texel);
    shield(s);
    // turned about the upright axis; moved to its place; seen with a near plane at 2 and a far one at 4
    s.matrix(0, [0.576, 0.0, 0.168, 0.0, 0.0, 0.6, 0.0, 0.0, -0.168, 0.0, 0.576, 0.0, 0.0, 0.0, 0.0, 1.0]);
    s.matrix(1, [1.0, 0.0, 0.0, -1.25, 0.0, 1.0, 0.0, 0.75, 0.0, 0.0, 1.0, -3.0, 0.0, 0.0, 0.0, 1.0]);
    s.matrix(2, [1.5, 0.0, 0.0, 0.0, 0.0, 2.0, 0.0, 0.0, 0.0, 0.0, -2.0, -4.0, 0.0, 0.0, -1.0, 0.0]);
    // ambient, diffuse, specular, emission, position
    s.light(0, [0.25, 0.25, 0.3, 0.75, 0.75, 0.7, 0.5, 0.5, 0.45, 0.0, 0.0, 0.0, -3.0, 3.0, 0.0]);
    s.lighting(1);
    s.command(0x1b, &[BADGE, 2]);
}

// ---- the program ----

fn send(vpu: &mut Vpu, part: fn(&mut Stream), sent: &mut Vec<u32>) -> Result<(), Refused> {
    let mut call = Stream::default();
    part(&mut call);
    vpu.feed(&call.words)?;
    sent.push(call.words.len() as u32);
    sent.extend(call.words);
    Ok(())
}

fn draw(sent: &mut Vec<u32>) -> Result<Vpu, Refused> {
    let mut vpu = Vpu::new(8192, 1024)?;
    for part in [|s: &mut Stream| s.clear(0), plate, portrait, badge] {
        send(&mut vpu, part, sent)?;
    }
    Ok(vpu)
}

fn main() -> Result<(), Box<dyn std::error::Error>> {
    let arguments: Vec<String> = std::env::args().skip(1).collect();
    let [picture, words @ ..] = &arguments[..] else { return Err("usage: host PICTURE [WORDS]".into()) };
    let mut sent = Vec::new();
    let vpu = draw(&mut sent).map_err(|refused| format!("refused: {refused:?}"))?;
    let [r, g, b, a] = vpu.pixel(60, 60);
    println!("status {:08x}\nwords {}\npixel 60 60: {r} {g} {b} {a}", vpu.status(), sent.len());
    let head =
        format!("P7\nWIDTH {WIDTH}\nHEIGHT {HEIGHT}\nDEPTH 4\nMAXVAL 255\nTUPLTYPE RGB_ALPHA\nENDHDR\n");
    std::fs::write(picture, [head.as_bytes(), vpu.plane()].concat())?;
    if let [file] = words {
        std::fs::write(file, sent.iter().flat_map(|word| word.to_le_bytes()).collect::<Vec<u8>>())?;
    }
    Ok(())
}
