//! The oracle's program: `oracle SUBCOMMAND ..`; docs/ORACLE.md describes each.

mod arguments;
mod generate;
mod replay_list;
mod run;
mod screen;
mod share;
mod single;
mod sums;
mod triangle;
mod vertex;

use arguments::Arguments;

const USAGE: &str = "usage:
  oracle single FUNCTION                       (lines from standard input)
  oracle run FILE [--dump DIR]
  oracle profiles
  oracle generate --profile P|all [--seed S] [--count N] --out DIR|FILE
  oracle recut FILE --cut KIND [--seed S] --out FILE
  oracle share --profile P|all [--seed S] [--count N]
  oracle sums
  oracle screen-list
  oracle screen-stdin
  oracle vertex-lines FUNCTION [--seed S] [--count N]
  oracle vertex-list
  oracle vertex-stdin
  oracle triangle-list
  oracle triangle-stdin
  oracle replay-list
  oracle replay-streams";

fn main() {
    let arguments: Vec<String> = std::env::args().skip(1).collect();
    if let Err(message) = dispatch(&arguments) {
        eprintln!("oracle: {message}");
        std::process::exit(1);
    }
}

fn dispatch(arguments: &[String]) -> Result<(), String> {
    let (subcommand, rest) = arguments.split_first().ok_or(USAGE)?;
    let rest = Arguments::parse(rest)?;
    match subcommand.as_str() {
        "single" => single::single(&rest),
        "run" => run::run(&rest),
        "profiles" => generate::profiles(&rest),
        "generate" => generate::generate(&rest),
        "recut" => generate::recut(&rest),
        "share" => share::share(&rest),
        "sums" => sums::sums(&rest),
        "screen-list" => screen::list(&rest),
        "screen-stdin" => screen::stdin(&rest),
        "vertex-lines" => vertex::lines(&rest),
        "vertex-list" => vertex::list(&rest),
        "vertex-stdin" => vertex::stdin(&rest),
        "triangle-list" => triangle::list(&rest),
        "triangle-stdin" => triangle::stdin(&rest),
        "replay-list" => replay_list::list(&rest),
        "replay-streams" => replay_list::streams(&rest),
        _ => Err(format!("no subcommand {subcommand:?}\n{USAGE}")),
    }
}
