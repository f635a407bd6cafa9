//! `replayer FILE`: what `replay` has to print for a file of stored streams, without the two repetitions that end each. It
//! needs the copy of the original alone, so that `oracle/planted` can build it often.

pub use vpu_original as original;

#[allow(dead_code)]
mod bits;
#[allow(dead_code, unused_imports)]
mod digests;
#[allow(dead_code)]
mod replay;
#[allow(dead_code)]
mod words;

fn run() -> Result<(), String> {
    let file = std::env::args().nth(1).ok_or("a file of stored streams is wanted")?;
    let mut digests = digests::Digests::default();
    for stream in replay::decode(&words::read_words(&file)?)? {
        println!("{}", stream.call_lines(&mut digests).join("\n"));
    }
    Ok(())
}

fn main() {
    if let Err(message) = run() {
        eprintln!("replayer: {message}");
        std::process::exit(1);
    }
}
