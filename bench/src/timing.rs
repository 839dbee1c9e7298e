// Two things timed side by side, and a table of the results.
use crate::clock;

// Medians in nanoseconds, and the library's time over plain Rust's: median, least and most of all repetitions.
pub struct Times {
    plain: f64,
    library: f64,
    ratio: [f64; 3],
}

fn median(mut numbers: Vec<f64>) -> [f64; 3] {
    numbers.sort_by(f64::total_cmp);
    [numbers[numbers.len() / 2], numbers[0], numbers[numbers.len() - 1]]
}

// Each repetition times the one and then the other.
pub fn side_by_side(repetitions: usize, mut library: impl FnMut() -> f64, mut plain: impl FnMut() -> f64) -> Times {
    let pairs: Vec<(f64, f64)> = (0..repetitions).map(|_| (library(), plain())).collect();
    Times {
        plain: median(pairs.iter().map(|pair| pair.1).collect())[0],
        library: median(pairs.iter().map(|pair| pair.0).collect())[0],
        ratio: median(pairs.iter().map(|pair| pair.0 / pair.1).collect()),
    }
}

// The time of so many calls, for one, in nanoseconds.
fn batch(calls: u32, f: &mut impl FnMut()) -> f64 {
    let start = clock::thread();
    (0..calls).for_each(|_| f());
    (clock::thread() - start) / calls as f64
}

// How many calls take 3 milliseconds.
fn enough(f: &mut impl FnMut()) -> u32 {
    let mut calls = 1;
    while batch(calls, f) * (calls as f64) < 3e6 {
        calls *= 2;
    }
    calls
}

pub fn calls(mut library: impl FnMut(), mut plain: impl FnMut()) -> Times {
    let (many, as_many) = (enough(&mut library), enough(&mut plain));
    side_by_side(21, || batch(many, &mut library), || batch(as_many, &mut plain))
}

fn time(nanoseconds: f64) -> String {
    match nanoseconds {
        x if x < 1e3 => format!("{x:.0} ns"),
        x if x < 1e6 => format!("{:.2} µs", x / 1e3),
        x => format!("{:.1} ms", x / 1e6),
    }
}

// Rows of one name stand together, the fewest members first: growth is over the first of them.
#[derive(Default)]
pub struct Table {
    rows: Vec<(String, usize, Times)>,
}

impl Table {
    pub fn add(&mut self, name: &str, members: usize, times: Times) {
        self.rows.push((name.into(), members, times));
    }

    pub fn print(&self) {
        println!("CPU time, medians of interleaved repetitions.\n");
        println!("| what | members | plain | library | library / plain | least..most | growth, plain | growth, library |");
        println!("|---|--:|--:|--:|--:|--:|--:|--:|");
        for (name, members, times) in &self.rows {
            let (plain, library) = (time(times.plain), time(times.library));
            let [middle, least, most] = times.ratio;
            print!("| {name} | {members} | {plain} | {library} | {middle:.2} | {least:.2}..{most:.2} |");
            let first = &self.rows.iter().find(|row| row.0 == *name).expect("this row at least").2;
            match self.rows.iter().filter(|row| row.0 == *name).count() {
                1 => println!(" | |"),
                _ => println!(" {:.1} | {:.1} |", times.plain / first.plain, times.library / first.library),
            }
        }
    }
}
