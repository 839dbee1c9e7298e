// How many instructions one list takes beside asking for every place, both through the C boundary. This program runs itself under
// valgrind, which counts those of a single call of one of the two functions below, and of all that it calls.
use crate::benchmarks::scene;
use crate::make::MIXES;
use crate::proved::{ASKED, Recovery};
use std::hint::black_box;
use std::process::{Command, exit};

const MEMBERS: usize = 128;

type Answers = [u8; MEMBERS];

// Asks for every place and keeps each answer: the loop and the stores are counted too.
#[inline(never)]
#[unsafe(no_mangle)]
extern "C" fn ask_every_place(recovery: &Recovery, out: &mut Answers) {
    for (place, answer) in out.iter_mut().enumerate() {
        *answer = recovery.ask(place);
    }
}

// Lists all answers in one call.
#[inline(never)]
#[unsafe(no_mangle)]
extern "C" fn list_every_place(recovery: &Recovery, out: &mut Answers) {
    recovery.list(out);
}

type Way = extern "C" fn(&Recovery, &mut Answers);

const WAYS: [(&str, Way); 2] = [("ask_every_place", ask_every_place), ("list_every_place", list_every_place)];

// How many in a hundred of those before it each has heard, and how many are back.
const SCENES: [(&str, usize, usize); 6] = [
    ("nobody back", 3, 0),
    ("half back, each has heard about two others", 3, 64),
    ("half back, each has heard half of those before it", 50, 64),
    ("all but one back, each has heard about two others", 3, 127),
    ("all but one back, each has heard half of those before it", 50, 127),
    ("all back, each has heard about two others", 3, 128),
];

// The same recovery in every run.
fn recovery_of(kinds: usize, number: usize) -> Box<Recovery> {
    let (_, percent, taken) = SCENES[number];
    scene(0, MIXES[kinds].1, MEMBERS, percent, taken).library
}

// The command that valgrind runs: one way, once.
pub const ONCE: &str = "listing-once";

pub fn once(way: usize, kinds: usize, number: usize) {
    let (recovery, mut out) = (recovery_of(kinds, number), Box::new([0; MEMBERS]));
    black_box(WAYS[way].1)(black_box(&recovery), black_box(&mut out));
}

// The instructions of one way, by valgrind's last lines.
fn instructions(way: usize, kinds: usize, number: usize) -> u64 {
    let output = Command::new("valgrind")
        .args(["--tool=callgrind", "--callgrind-out-file=/dev/null", &format!("--toggle-collect={}", WAYS[way].0)])
        .arg(std::env::current_exe().expect("this program"))
        .args([ONCE, &way.to_string(), &kinds.to_string(), &number.to_string()])
        .output();
    let Ok(output) = output else {
        eprintln!("valgrind does not start: it counts the instructions");
        exit(2);
    };
    let text = String::from_utf8_lossy(&output.stderr);
    let counted = text.lines().find_map(|line| line.split_once("Collected :")?.1.trim().parse().ok());
    match counted {
        Some(counted) if output.status.success() && counted > 0 => counted,
        _ => panic!("valgrind counted nothing:\n{text}"),
    }
}

// How many are last, not last and open, if both ways give the same.
fn tally(recovery: &Recovery) -> [usize; 3] {
    let [asked, listed] = WAYS.map(|(_, way)| {
        let mut out = [9; MEMBERS];
        way(recovery, &mut out);
        out
    });
    assert_eq!(listed.map(|byte| ASKED[byte as usize]), asked);
    [33, 34, 35].map(|answer| asked.iter().filter(|&&x| x == answer).count())
}

pub fn run() {
    println!("Instructions of one call, with all that it calls; {MEMBERS} members.\n");
    println!("| records | who is back | last | not last | open | every place asked | one list | list / asked |");
    println!("|---|---|--:|--:|--:|--:|--:|--:|");
    for (number, (name, ..)) in SCENES.iter().enumerate() {
        for (kinds, (records, _)) in MIXES.iter().enumerate() {
            let [last, not_last, open] = tally(&recovery_of(kinds, number));
            let [asked, listed] = [0, 1].map(|way| instructions(way, kinds, number));
            let ratio = listed as f64 / asked as f64;
            println!("| {records} | {name} | {last} | {not_last} | {open} | {asked} | {listed} | {ratio:.3} |");
        }
    }
}
