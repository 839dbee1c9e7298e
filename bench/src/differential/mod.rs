// Random lists of calls, made of the library and of the plain implementation: every answer and every lent byte is compared, and
// the whole struct after each call. List k of a run has the seed SEED + k, so that the seed of a difference starts with its list. A few
// fixed games come first.
mod day;
mod records;
mod recovery;

use crate::make;
use crate::plain::Refusal;
use crate::plain::set::Set;
use crate::proved::{Day, End};
use crate::random::Random;
use std::collections::BTreeMap;
use std::fmt::Debug;
use std::time::Instant;

pub struct Run {
    pub random: Random,
    seed: u64,
    // calls of this list, and of all
    call: u64,
    total: u64,
    // what is being called: its name, its numbers and the bytes lent to be read
    name: &'static str,
    numbers: Vec<usize>,
    lent: Vec<u8>,
    // how often each call had each answer
    tally: BTreeMap<(&'static str, u64), u64>,
}

impl Run {
    pub fn begin(&mut self, name: &'static str, numbers: &[usize], lent: &[u8]) {
        self.call += 1;
        self.total += 1;
        self.name = name;
        self.numbers.clear();
        self.numbers.extend_from_slice(numbers);
        self.lent.clear();
        self.lent.extend_from_slice(lent);
    }

    pub fn same<T: PartialEq + Debug>(&self, what: &str, plain: &T, library: &T) {
        if plain != library {
            println!("seed {}, call {}: {} {:?} {}", self.seed, self.call, self.name, self.numbers, hex(&self.lent));
            println!("  {what}");
            println!("  plain   {plain:?}");
            println!("  library {library:?}");
            std::process::exit(1);
        }
    }

    pub fn answer(&mut self, plain: u64, library: u64) {
        self.same("answer", &plain, &library);
        *self.tally.entry((self.name, plain)).or_default() += 1;
    }

    // What a writer gave, counted by its refusal.
    pub fn end(&mut self, plain: Result<usize, Refusal>, library: End) {
        let plain = match plain {
            Ok(next) => End { refusal: 0, next: next as u64 },
            Err(refusal) => End { refusal: refusal as u64, next: 0 },
        };
        self.same("end", &plain, &library);
        self.answer(plain.refusal, library.refusal);
    }

    // Writes the record of some place, with room for it or too little.
    pub fn write(
        &mut self,
        name: &'static str,
        rows: &[Set],
        plain: impl Fn(usize, &mut [u8], usize) -> Result<usize, Refusal>,
        library: impl Fn(usize, &mut [u8], usize) -> End,
    ) {
        let place = make::place(&mut self.random, rows.len());
        let named = rows.get(place).map_or(0, |row| row.count_ones() as usize);
        let size = 7 + 4 * (rows.len() + named);
        let length = make::length(&mut self.random, size) + self.random.pick(&[0, 0, 5, 30]);
        let at = make::position(&mut self.random, length, size);
        let (mut out, mut theirs) = self.buffers(length);
        self.begin(name, &[place, length, at], &[]);
        self.end(plain(place, out.part(), at), library(place, theirs.part(), at));
        self.same("the buffer afterwards", &out, &theirs);
    }

    // A buffer of some length with random bytes, and as many on both sides, for each of the two.
    pub fn buffers(&mut self, length: usize) -> (Buffer, Buffer) {
        let bytes = self.random.bytes(length + 2 * SIDE);
        (Buffer { bytes: bytes.clone() }, Buffer { bytes })
    }
}

const SIDE: usize = 24;

// A lent buffer: what is before and behind it is compared too.
#[derive(PartialEq)]
pub struct Buffer {
    bytes: Vec<u8>,
}

impl Buffer {
    pub fn part(&mut self) -> &mut [u8] {
        let end = self.bytes.len() - SIDE;
        &mut self.bytes[SIDE..end]
    }
}

impl Debug for Buffer {
    fn fmt(&self, f: &mut std::fmt::Formatter) -> std::fmt::Result {
        let end = self.bytes.len() - SIDE;
        write!(f, "{} [{}] {}", hex(&self.bytes[..SIDE]), hex(&self.bytes[SIDE..end]), hex(&self.bytes[end..]))
    }
}

fn hex(bytes: &[u8]) -> String {
    bytes.iter().map(|byte| format!("{byte:02x}")).collect()
}

// A set of places as two words.
pub fn words(set: u128) -> [u64; 2] {
    [set as u64, (set >> 64) as u64]
}

pub fn set_of(words: &[u64]) -> u128 {
    words[0] as u128 | (words[1] as u128) << 64
}

// The row of a place in a table of bytes.
pub fn row_of(rows: &[u8], place: usize) -> u128 {
    u128::from_le_bytes(rows[16 * place..][..16].try_into().expect("16 bytes"))
}

pub fn put_row(rows: &mut [u8], place: usize, row: u128) {
    rows[16 * place..][..16].copy_from_slice(&row.to_le_bytes());
}

// A day with random words and bytes throughout.
pub fn noise(random: &mut Random) -> Day {
    let mut parts = Day::zero();
    parts.head.fill_with(|| random.next());
    parts.serials.fill_with(|| random.next() as u32);
    parts.rows.copy_from_slice(&random.bytes(2_048));
    parts
}

// What a day has to be after an opening.
pub fn opened(kind: u8, list: &[u32]) -> Day {
    let mut parts = Day::zero();
    (parts.head[0], parts.head[1]) = (kind as u64, list.len() as u64);
    parts.serials[..list.len()].copy_from_slice(list);
    parts
}

// A day that no call has made: words that count as others, and bits off the roster. The first n serials stay those of a group, but for
// a zero or a repeat now and then.
pub fn garbled(random: &mut Random, kind: u8, list: &[u32]) -> Day {
    let mut parts = noise(random);
    let n = list.len();
    parts.head[0] = if kind == 2 { 2 } else { random.pick(&[0, 1, 3, 258, 1 << 32 | 2, u64::MAX]) };
    parts.head[1] = n as u64;
    if random.chance(20) || n == 128 {
        parts.head[1] = random.pick(&[n as u64, n as u64 / 2, 0, 128, 129, 1 << 32 | n as u64, u64::MAX]);
    }
    parts.serials[..n].copy_from_slice(list);
    if random.chance(10) {
        let (i, j) = (random.below(n), random.below(n));
        parts.serials[i] = random.pick(&[0, parts.serials[j]]);
    }
    let density = random.below(4);
    for p in 0..128 {
        let set = (0..density).fold(random.bits(), |set, _| set & random.bits());
        put_row(&mut parts.rows, p, if random.chance(50) { 0 } else { set });
    }
    parts
}

pub fn run(seed: u64, calls: u64) {
    let start = Instant::now();
    let mut run =
        Run { random: Random::new(seed), seed, call: 0, total: 0, name: "", numbers: Vec::new(), lent: Vec::new(), tally: BTreeMap::new() };
    recovery::games(&mut run);
    let mut lists = 0;
    while run.total < calls {
        run.seed = seed.wrapping_add(lists);
        run.random = Random::new(run.seed);
        run.call = 0;
        match run.random.below(10) {
            0..6 => recovery::list(&mut run),
            6..8 => day::list(&mut run),
            _ => records::list(&mut run),
        }
        lists += 1;
    }
    let mut name = "";
    for ((call, answer), count) in &run.tally {
        if *call != name {
            print!("{}{call}:", if name.is_empty() { "" } else { "\n" });
            name = call;
        }
        print!(" {answer}\u{d7}{count}");
    }
    println!("\nno difference in {} calls of {lists} lists, seed {seed}, {:.1} s", run.total, start.elapsed().as_secs_f64());
}

// How many calls a list has: few mostly, now and then many.
pub fn list_length(random: &mut Random) -> usize {
    match random.below(20) {
        0 => 200 + random.below(800),
        1..9 => 30 + random.below(120),
        _ => 1 + random.below(30),
    }
}
