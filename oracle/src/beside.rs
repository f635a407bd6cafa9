//! Feeds streams to the port and to the original, in one process, and compares answer, state, plane, both depths and both
//! stores after each call, every NaN as one value. Linked with the archive of the crate `vpu_c`; `oracle/streams` builds it.
//!   streams --profile P|all [--count N] [--seed S] [--out FILE]
//!   streams --singles N [--seed S] [--only OPCODE] [--out FILE]

#[allow(dead_code)]
mod arguments;
#[path = "beside/differences.rs"]
mod differences;
#[path = "beside/port.rs"]
mod port;
#[path = "beside/sides.rs"]
mod sides;
#[path = "beside/singles.rs"]
mod singles;

use arguments::Arguments;
use differences::Differences;
use sides::{run as run_calls, Sides};
use singles::compare_singles;
use vpu_oracle::judge::Start;
use vpu_oracle::profiles::{self, Profile};
use vpu_oracle::watch::Watch;

fn compare_profile(profile: &Profile, seed: u64, count: u64, file: &str) -> Result<bool, String> {
    let (mut watch, mut differences, mut sides) = (Watch::default(), Differences::default(), Sides::new());
    let start = Start { stores: [profile.store(); 2], status: 0 };
    for index in 0..count {
        let calls = profile.calls(seed, index);
        if let Some((place, what)) = run_calls(&mut sides, start, &calls, &mut watch) {
            differences.add(&mut sides, start, &calls[..=place], what);
        }
    }
    let Watch { commands, draws, changed, .. } = watch;
    print!("{:12} {count:6} streams, {commands:8} commands, {draws:8} draws, ", profile.name);
    println!("{changed:8} changed a pixel, {} differences", differences.count);
    differences.report(file)
}

fn compare_profiles(arguments: &Arguments, file: &str) -> Result<bool, String> {
    let name = arguments.wanted("profile")?;
    let (seed, count) = (arguments.number("seed", 1)?, arguments.number("count", 10)?);
    let inside: Vec<_> = profiles::named(name)?.into_iter().filter(|profile| profile.inside_domain).collect();
    if inside.is_empty() {
        return Err(format!("{name} leaves the domain of the comparison"));
    }
    let mut agreed = true;
    for profile in inside {
        agreed &= compare_profile(profile, seed, count, file)?;
    }
    Ok(agreed)
}

fn run() -> Result<bool, String> {
    let texts: Vec<String> = std::env::args().skip(1).collect();
    let arguments = Arguments::parse(&texts)?;
    let singles = arguments.option("singles").is_some();
    let own: &[&str] = if singles { &["singles", "only"] } else { &["profile", "count"] };
    arguments.expect(0, &[own, &["seed", "out"]].concat())?;
    let file = arguments.wanted("out")?;
    if singles {
        compare_singles(&arguments, file)
    } else {
        compare_profiles(&arguments, file)
    }
}

fn main() {
    match run() {
        Ok(agreed) => std::process::exit(!agreed as i32),
        Err(message) => {
            eprintln!("streams: {message}");
            std::process::exit(1);
        }
    }
}
