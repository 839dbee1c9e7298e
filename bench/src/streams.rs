// The program beside the plain program, each a process of its own: the same output for random streams, and times on long ones.
use crate::clock;
use crate::make::{self, Group, SIZES};
use crate::plain::boards::Boards;
use crate::plain::{program, record};
use crate::random::Random;
use crate::timing::{Table, side_by_side};
use std::collections::BTreeMap;
use std::fs::File;
use std::io::{Read, Write};
use std::path::{Path, PathBuf};
use std::process::{Command, Stdio, exit};

// The program that GM_PROGRAM names, or the one that `rt run` in crates/recover builds.
fn program() -> PathBuf {
    let otherwise = Path::new(env!("CARGO_MANIFEST_DIR")).join("../crates/recover/out/recover");
    let path = std::env::var_os("GM_PROGRAM").map_or(otherwise, PathBuf::from);
    if !path.is_file() {
        eprintln!("no program at {}: run rt run in crates/recover, or set GM_PROGRAM", path.display());
        exit(2);
    }
    path
}

// Records of a group and now and then of another; the last may have a fault.
fn stream(random: &mut Random) -> Vec<u8> {
    let (group, other) = (Group::any(random), Group::any(random));
    let count = if random.chance(5) { random.below(3_000) } else { random.below(40) };
    let mut bytes = Vec::new();
    for _ in 0..count {
        let whose = if random.chance(95) { &group } else { &other };
        let next = make::offer(random, whose, &[]);
        if record::read_lone(&next, Boards::OLD, &mut Vec::new()).is_ok() {
            bytes.extend(next);
        }
    }
    if random.chance(40) {
        bytes.extend(make::offer(random, &group, &[]));
    }
    bytes
}

// What the program writes, fed through a pipe in parts of some size.
fn output_of(program: &Path, input: &[u8], part: usize) -> Vec<u8> {
    let mut child = Command::new(program).stdin(Stdio::piped()).stdout(Stdio::piped()).spawn().expect("the program starts");
    let (mut to, mut from) = (child.stdin.take().expect("a pipe"), child.stdout.take().expect("a pipe"));
    let mut output = Vec::new();
    std::thread::scope(|scope| {
        // a program that stops reading closes the pipe
        scope.spawn(move || input.chunks(part).all(|part| to.write_all(part).is_ok()));
        from.read_to_end(&mut output).expect("its output");
    });
    child.wait().expect("the program ends");
    output
}

pub fn compare(seed: u64, count: u64) {
    let program = program();
    let mut tally: BTreeMap<String, u64> = BTreeMap::new();
    for k in 0..count {
        let mut random = Random::new(seed.wrapping_add(k));
        let input = stream(&mut random);
        let part = random.pick(&[1 + input.len() / 50, 4_096, 65_536, usize::MAX]);
        let mut plain = Vec::new();
        program::run(&input[..], &mut plain).expect("memory");
        let library = output_of(&program, &input, part);
        if plain != library {
            println!("seed {}, {} bytes of input", seed.wrapping_add(k), input.len());
            println!("plain:\n{}\nprogram:\n{}", String::from_utf8_lossy(&plain), String::from_utf8_lossy(&library));
            exit(1);
        }
        for line in String::from_utf8_lossy(&plain).lines() {
            // the words behind a record's number or a serial
            let words = line.split_once(' ').map_or("", |parts| parts.1);
            *tally.entry(words.trim_start_matches(|c: char| c.is_ascii_digit()).into()).or_default() += 1;
        }
    }
    println!("{tally:?}");
    println!("no difference in {count} streams, seed {seed}");
}

// The CPU time of one run over a file, the output thrown away.
fn run_over(file: &Path, command: &mut Command) -> f64 {
    let input = File::open(file).expect("the stream");
    let start = clock::children();
    let status = command.stdin(input).stdout(Stdio::null()).status().expect("the program runs");
    assert!(status.success());
    clock::children() - start
}

// 100,000 records: each member's, over and over in some order.
pub fn time() {
    let (program, own) = (program(), std::env::current_exe().expect("this program"));
    let file = std::env::temp_dir().join(format!("goatmonth-stream-{}", std::process::id()));
    let mut table = Table::default();
    for (kinds, full) in make::MIXES {
        for (order, sizes) in [("random order", &SIZES[..]), ("rising order", &[128]), ("one hash for all", &[128])] {
            for &n in sizes {
                let mut random = Random::new(n as u64);
                let truth = make::history_of(&mut random, full, n, 400 / n);
                let group = Group { full, roster: make::ordered(order, n), truth };
                let records: Vec<Vec<u8>> = (0..n).map(|place| group.record(place).bytes()).collect();
                let bytes: Vec<u8> = (0..100_000).flat_map(|_| records[random.below(n)].iter().copied()).collect();
                std::fs::write(&file, &bytes).expect("room for the stream");
                let mut plain = Vec::new();
                program::run(&bytes[..], &mut plain).expect("memory");
                assert!(plain == output_of(&program, &bytes, 65_536), "the programs differ");
                let library = || run_over(&file, &mut Command::new(&program));
                let plain = || run_over(&file, Command::new(&own).arg("program"));
                let times = side_by_side(11, library, plain);
                table.add(&format!("the program, 100,000 records, {kinds}, {order}"), n, times);
            }
        }
    }
    std::fs::remove_file(&file).expect("the stream is removed");
    table.print();
}
