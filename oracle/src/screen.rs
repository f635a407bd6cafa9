//! `oracle screen-list` and `oracle screen-stdin`: what the program `screen_test` prints and reads.

use crate::arguments::Arguments;
use std::io::Write;
use vpu_oracle::digests::{little_endian, Digests};
use vpu_oracle::original::{call_rgb555_dither, Vpu};
use vpu_oracle::streams::{Command, Stream};

/// Named cases first; from the sixth on, numbers of splitmix64 with seed 24.
const FILL_COLOURS: [u32; 24] = [
    0x0000_0000,
    0xffff_ffff,
    0x8080_80ff,
    0x0102_0304,
    0xfe01_ff80,
    0xaac8_c000,
    0xa56a_748b,
    0x0724_c279,
    0x90de_9a11,
    0xd885_8e73,
    0x811b_c007,
    0xd69a_fef8,
    0xcb58_8a01,
    0x8566_d5e3,
    0xef06_6f42,
    0xed27_51d3,
    0x2bca_ff41,
    0x4677_4045,
    0x96ee_702e,
    0xc6d4_d986,
    0x99b7_e431,
    0x05d4_4c1a,
    0x0ab6_9c71,
    0x4ecf_9ee9,
];

const PIXELS: [(usize, usize); 8] =
    [(0, 0), (319, 0), (0, 239), (319, 239), (2, 3), (161, 77), (320, 0), (0, 240)];

pub fn stdin(arguments: &Arguments) -> Result<(), String> {
    arguments.expect(0, &[])?;
    std::io::stdout().write_all(&little_endian(&FILL_COLOURS)).map_err(|error| error.to_string())
}

pub fn list(arguments: &Arguments) -> Result<(), String> {
    arguments.expect(0, &[])?;
    for cell in 0..16 {
        println!("{}", dither_line(cell % 4, cell / 4));
    }
    let mut vpu = Vpu::new();
    let mut digests = Digests::default();
    for rgba in FILL_COLOURS {
        let mut stream = Stream::default();
        stream.send(&Command::clear(3, rgba, 0));
        vpu.feed(&stream.words);
        println!("{:016x} {}", digests.take(&vpu)[0], pixel_texts(&vpu).join(" "));
    }
    // The original owns its plane. The answer for a lent plane of the wrong length is rule 1.6 of docs/RULES.md.
    println!("a plane of 96 bytes: wrong length");
    let [_, depth, depth_f32] = digests.take(&vpu);
    println!("{depth:016x} {depth_f32:016x}");
    Ok(())
}

fn dither_line(x: usize, y: usize) -> String {
    (0..=255).map(|channel| format!("{:02x}", call_rgb555_dither([channel; 3], x, y)[0])).collect()
}

fn pixel_texts(vpu: &Vpu) -> Vec<String> {
    PIXELS
        .iter()
        .map(|(x, y)| {
            let (r, g, b, a) = vpu.pixel(*x, *y);
            format!("{r:02x}{g:02x}{b:02x}{a:02x}")
        })
        .collect()
}
