//! `oracle run FILE`: a stream file through a new machine, a line after each call.

use crate::arguments::Arguments;
use std::io::{BufWriter, Write};
use std::path::Path;
use vpu_oracle::digests::{depth_f32_words, depth_words, little_endian, Digests};
use vpu_oracle::original::Vpu;
use vpu_oracle::words::read_calls;

pub fn run(arguments: &Arguments) -> Result<(), String> {
    arguments.expect(1, &["dump"])?;
    let calls = read_calls(arguments.plain(0))?;
    let mut vpu = Vpu::new();
    print_calls(&mut vpu, &calls).map_err(|error| error.to_string())?;
    match arguments.option("dump") {
        Some(folder) => dump(&vpu, Path::new(folder)).map_err(|error| format!("{folder}: {error}")),
        None => Ok(()),
    }
}

fn print_calls(vpu: &mut Vpu, calls: &[Vec<u32>]) -> std::io::Result<()> {
    let mut out = BufWriter::new(std::io::stdout().lock());
    let mut digests = Digests::default();
    for call in calls {
        vpu.feed(call);
        writeln!(out, "{}", digests.line(vpu))?;
    }
    out.flush()
}

fn dump(vpu: &Vpu, folder: &Path) -> std::io::Result<()> {
    std::fs::create_dir_all(folder)?;
    std::fs::write(folder.join("plane"), vpu.plane())?;
    std::fs::write(folder.join("depth"), little_endian(&depth_words(vpu)))?;
    std::fs::write(folder.join("depth_f32"), little_endian(&depth_f32_words(vpu)))
}
