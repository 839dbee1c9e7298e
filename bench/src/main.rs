// Tests and benchmarks of the proved library beside plain Rust. What each command does stands in the usage below.
#![cfg_attr(not(proved), allow(dead_code))]

#[cfg(proved)]
mod benchmarks;
mod clock;
#[cfg(proved)]
mod differential;
#[cfg(proved)]
mod listing;
mod make;
mod plain;
#[cfg(proved)]
mod proved;
mod random;
mod selftest;
mod streams;
mod timing;

const USAGE: &str = "commands:
  selftest                     the plain implementation by itself
  differential [SEED [CALLS]]  the library and the plain implementation, call by call
  streams [SEED [COUNT]]       crates/recover/out/recover, or the program that GM_PROGRAM names, and the plain program
  bench                        times of the library's calls beside plain Rust's
  listing                      instructions of one list beside askings of every place, 128 members; runs itself under valgrind
  bench-program                times of the program beside the plain program
  program                      the plain program: standard input to standard output";

fn main() {
    let words: Vec<String> = std::env::args().skip(1).collect();
    let number = |k: usize, otherwise: u64| words.get(k).map_or(otherwise, |word| word.parse().expect("a number"));
    match words.first().map_or("", String::as_str) {
        "selftest" => selftest::run(),
        "program" => plain::program::run(std::io::stdin().lock(), std::io::stdout().lock()).expect("input and output"),
        "streams" => streams::compare(number(1, 1), number(2, 10_000)),
        "bench-program" => streams::time(),
        #[cfg(proved)]
        "differential" => differential::run(number(1, 1), number(2, 10_000_000)),
        #[cfg(proved)]
        "bench" => benchmarks::run(),
        #[cfg(proved)]
        "listing" => listing::run(),
        #[cfg(proved)]
        listing::ONCE => listing::once(number(1, 0) as usize, number(2, 0) as usize, number(3, 0) as usize),
        #[cfg(not(proved))]
        "differential" | "bench" | "listing" => {
            eprintln!("built without the library: run rt lib in the folders of capi and of each crate that begins with capi_,");
            eprintln!("or set GM_LIBRARY, and build again");
            std::process::exit(2);
        }
        _ => {
            eprintln!("{USAGE}");
            std::process::exit(2);
        }
    }
}
