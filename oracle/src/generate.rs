//! `oracle generate`, `oracle profiles` and `oracle recut`.

use crate::arguments::Arguments;
use std::path::{Path, PathBuf};
use vpu_oracle::cuts::Cut;
use vpu_oracle::digests::little_endian;
use vpu_oracle::profiles::{self, Profile};
use vpu_oracle::random::Random;
use vpu_oracle::streams::Stream;
use vpu_oracle::words::{encode_calls, read_calls};

pub fn profiles(arguments: &Arguments) -> Result<(), String> {
    arguments.expect(0, &[])?;
    for profile in profiles::named("all")? {
        let domain = if profile.inside_domain { "inside" } else { "outside" };
        println!("{:12} {domain:8} {}", profile.name, profile.about);
    }
    Ok(())
}

pub fn generate(arguments: &Arguments) -> Result<(), String> {
    arguments.expect(0, &["profile", "seed", "count", "out"])?;
    let chosen = profiles::named(arguments.wanted("profile")?)?;
    let (seed, count) = (arguments.number("seed", 1)?, arguments.number("count", 1)?);
    let out = Path::new(arguments.wanted("out")?);
    let one_file = count == 1 && chosen.len() == 1 && !out.is_dir();
    for profile in chosen {
        for index in 0..count {
            let path = if one_file { out.to_path_buf() } else { inside(out, profile, seed, index)? };
            write_calls(&path, &profile.calls(seed, index))?;
        }
    }
    Ok(())
}

pub fn recut(arguments: &Arguments) -> Result<(), String> {
    arguments.expect(1, &["cut", "seed", "out"])?;
    let cut = Cut::named(arguments.wanted("cut")?)?;
    let stream = Stream::framed(read_calls(arguments.plain(0))?.concat());
    let mut random = Random::new(arguments.number("seed", 1)?);
    write_calls(Path::new(arguments.wanted("out")?), &cut.apply(&stream, &mut random))
}

fn write_calls(path: &Path, calls: &[Vec<u32>]) -> Result<(), String> {
    std::fs::write(path, little_endian(&encode_calls(calls)))
        .map_err(|error| format!("{}: {error}", path.display()))
}

fn inside(folder: &Path, profile: &Profile, seed: u64, index: u64) -> Result<PathBuf, String> {
    std::fs::create_dir_all(folder).map_err(|error| format!("{}: {error}", folder.display()))?;
    Ok(folder.join(format!("{}-{seed}-{index:04}.words", profile.name)))
}
