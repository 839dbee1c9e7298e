// Lists of calls on a day, and a recovery over the records of one that has ended.
use super::{Run, garbled, list_length, noise, opened, put_row, row_of, set_of, words};
use crate::make;
use crate::plain::Kind;
use crate::plain::day::{Day, Event};
use crate::plain::set::{below, has};
use crate::proved::{self, Played, Recovery};

struct Pair {
    library: proved::Day,
    wanted: proved::Day,
    plain: Day,
    // it was opened, and not made up
    opened: bool,
}

pub fn list(run: &mut Run) {
    try_open(run);
    let roster = make::roster(&mut run.random);
    let kind = 1 + run.random.below(2) as u8;
    let mut pair = if run.random.chance(15) { unmade(run, kind, &roster) } else { open(run, kind, &roster) };
    let stops = run.random.pick(&[3, 10, 40]);
    for _ in 0..list_length(&mut run.random) {
        match run.random.below(10) {
            0..7 => event(run, &mut pair, stops),
            7 => play(run, &mut pair, stops),
            _ => write(run, &pair),
        }
        run.same("the day afterwards", &pair.wanted, &pair.library);
    }
    if pair.opened && run.random.chance(30) {
        finish(run, &mut pair);
    }
}

fn try_open(run: &mut Run) {
    let (kind, list) = (make::kind(&mut run.random), make::list(&mut run.random));
    let mut library = noise(&mut run.random);
    let before = library;
    run.begin("day_open", &[kind as usize, list.len()], &[]);
    let plain = Day::open(kind, &list);
    let code = library.open(kind, &list);
    run.answer(plain.as_ref().map_or_else(|refusal| *refusal, |_| 0) as u64, code as u64);
    run.same("the day afterwards", &if plain.is_ok() { opened(kind, &list) } else { before }, &library);
}

fn open(run: &mut Run, kind: u8, roster: &[u32]) -> Pair {
    let mut library = noise(&mut run.random);
    run.begin("day_open", &[kind as usize, roster.len()], &[]);
    let code = library.open(kind, roster);
    run.answer(0, code as u64);
    run.same("the day afterwards", &opened(kind, roster), &library);
    Pair { library, wanted: opened(kind, roster), plain: Day::open(kind, roster).expect("a roster"), opened: true }
}

// A day that no call has made, and the plain one that it stands for.
fn unmade(run: &mut Run, kind: u8, roster: &[u32]) -> Pair {
    let library = garbled(&mut run.random, kind, roster);
    let n = library.head[1].min(128) as usize;
    let plain = Day {
        kind: if library.head[0] == 2 { Kind::Short } else { Kind::Full },
        roster: library.serials[..n].to_vec(),
        stopped: set_of(&library.head[2..]) & below(n),
        rows: (0..n).map(|p| row_of(&library.rows, p) & below(n)).collect(),
    };
    Pair { wanted: library, library, plain, opened: false }
}

// An event: mostly one of a running place that hears a stopped one, or stops.
fn some_event(run: &mut Run, day: &Day, stops: usize) -> Event {
    let n = day.roster.len();
    let random = &mut run.random;
    let kind = if random.chance(4) { random.pick(&[0, 3, 255]) } else { 2 - random.chance(stops) as u8 };
    let (mut place, mut other) = (make::place(random, n), make::place(random, n));
    let (running, stopped): (Vec<usize>, Vec<usize>) = (0..n).partition(|&p| !has(day.stopped, p));
    if !running.is_empty() && random.chance(80) {
        place = random.pick(&running);
    }
    if !stopped.is_empty() && random.chance(80) {
        other = random.pick(&stopped);
    }
    Event { kind, place, other }
}

// Events that are each chosen for the day after those before it; in some lists only such as are allowed.
fn some_events(run: &mut Run, day: &Day, stops: usize) -> Vec<Event> {
    let mut day = day.clone();
    let length = if run.random.chance(90) { run.random.below(8) } else { run.random.below(300) };
    let allowed = run.random.chance(40);
    let events = (0..length).map(|_| {
        let event = some_event(run, &day, stops);
        (event, day.event(event))
    });
    events.filter(|(_, outcome)| !allowed || outcome.is_ok()).map(|(event, _)| event).collect()
}

// What has stopped and what was heard only grows: on the roster both become the plain day's.
fn grow(pair: &mut Pair) {
    let stopped = words(set_of(&pair.wanted.head[2..]) | pair.plain.stopped);
    pair.wanted.head[2..].copy_from_slice(&stopped);
    for (place, row) in pair.plain.rows.iter().enumerate() {
        let grown = row_of(&pair.wanted.rows, place) | row;
        put_row(&mut pair.wanted.rows, place, grown);
    }
}

fn event(run: &mut Run, pair: &mut Pair, stops: usize) {
    let event = some_event(run, &pair.plain, stops);
    run.begin("day_event", &[event.kind as usize, event.place, event.other], &[]);
    let plain = pair.plain.event(event).err().unwrap_or(0);
    let library = pair.library.event(event.kind, event.place, event.other);
    run.answer(plain as u64, library as u64);
    grow(pair);
}

// A list of events up to the first refusal: in one call, and by single events.
fn play(run: &mut Run, pair: &mut Pair, stops: usize) {
    let events = some_events(run, &pair.plain, stops);
    let lent: Vec<proved::Event> = events.iter().map(|event| lent(run, event)).collect();
    let numbers: Vec<usize> = lent.iter().flat_map(|event| [event.kind, event.place, event.other].map(|x| x as usize)).collect();
    run.begin("day_play", &numbers, &[]);
    let (count, outcome) = pair.plain.play(&events);
    let refusal = outcome.err().unwrap_or(0);
    grow(pair);
    let played = pair.library.play(&lent);
    run.same("played", &Played { count: count as u64, refusal: refusal as u64, day: pair.wanted }, &played);
    run.answer(refusal as u64, played.refusal);
    for (k, event) in events.iter().enumerate().take(count + 1) {
        run.begin("day_event", &[event.kind as usize, event.place, event.other], &[]);
        let library = pair.library.event(event.kind, event.place, event.other);
        run.answer(if k < count { 0 } else { refusal as u64 }, library as u64);
    }
}

// An event of a list: its kind is a word there, and one that no byte holds is as unknown as 0.
fn lent(run: &mut Run, event: &Event) -> proved::Event {
    let kind = event.kind as u64;
    let kind = if (1..=2).contains(&kind) { kind } else { run.random.pick(&[kind, kind, 257, 258, 1 << 32 | 1, 1 << 63 | 2, u64::MAX]) };
    proved::Event { kind, place: event.place as u64, other: event.other as u64 }
}

fn write(run: &mut Run, pair: &Pair) {
    let plain = |place, out: &mut [u8], at| pair.plain.write(place, out, at);
    let library = |place, out: &mut [u8], at| pair.library.write(place, out, at);
    run.write("day_write", &pair.plain.rows, plain, library);
}

// All stop, and the records are offered in some order: each is taken, and what is decided is true of the day.
fn finish(run: &mut Run, pair: &mut Pair) {
    let n = pair.plain.roster.len();
    for place in 0..n {
        let _ = pair.plain.event(Event { kind: 1, place, other: 0 });
        pair.library.event(1, place, 0);
    }
    let mut recovery = Recovery::zero();
    recovery.open(&pair.plain.roster);
    let mut order: Vec<usize> = (0..n).collect();
    run.random.shuffle(&mut order);
    for place in order {
        let mut out = [0; 1_031];
        let end = pair.library.write(place, &mut out, 0);
        run.begin("offer", &[place], &out[..end.next as usize]);
        let taken = recovery.offer(&out[..end.next as usize]);
        run.answer(0, taken as u64);
        let asked = run.random.below(n);
        let last = pair.plain.rows.iter().all(|&row| row >> asked & 1 == 0);
        run.begin("a finished day", &[asked], &[]);
        let answer = recovery.ask(asked) as u64;
        run.answer(
            if answer == 35 {
                35
            } else if last {
                33
            } else {
                34
            },
            answer,
        );
    }
    run.same("settled", &1, &recovery.settled());
}
