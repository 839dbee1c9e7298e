// The library's calls beside plain Rust's, on the same input. Buffers are not cleared between calls, and all is in the cache.
use crate::make::{self, Group, Layout, MIXES, SIZES};
use crate::plain::Kind::Short;
use crate::plain::boards::Boards;
use crate::plain::game;
use crate::plain::record;
use crate::plain::recovery::{Answer, Offer, Recovery};
use crate::plain::set::{Set, below};
use crate::proved;
use crate::random::Random;
use crate::timing::{Table, calls};
use std::hint::black_box;

pub fn run() {
    let mut table = Table::default();
    reading(&mut table);
    desk(&mut table);
    for (kinds, full) in MIXES {
        offering(&mut table, &format!("offering every record, {kinds}"), full, false);
    }
    for (kinds, full) in MIXES {
        offering(&mut table, &format!("offering every record by second serials, {kinds}"), full, true);
    }
    for (kinds, full) in MIXES {
        asking(&mut table, kinds, full);
    }
    for (kinds, full) in MIXES {
        listing(&mut table, kinds, full);
    }
    for (kinds, full) in MIXES {
        fetching(&mut table, kinds, full);
    }
    playing(&mut table);
    for (kinds, full) in MIXES {
        showing(&mut table, kinds, full);
    }
    for (kinds, full) in MIXES {
        checking(&mut table, kinds, full);
    }
    table.print();
}

// The longest records of some rosters, where all are mourned: the order of the serials, how many they are, and the bytes.
fn longest() -> impl Iterator<Item = (&'static str, usize, Vec<u8>)> {
    let rosters = [("random order", &SIZES[..]), ("rising order", &[128]), ("one hash for all", &[128])];
    let each = rosters.into_iter().flat_map(|(order, sizes)| sizes.iter().map(move |&n| (order, n)));
    each.map(|(order, n)| (order, n, Layout::new(Short, &make::ordered(order, n), n / 2, below(n)).bytes()))
}

fn reading(table: &mut Table) {
    for (order, n, bytes) in longest() {
        let (mut words, mut roster) = ([0; 7], Vec::with_capacity(128));
        let plain = record::read_lone(&bytes, Boards::OLD, &mut roster);
        assert_eq!((proved::read_lone(&bytes, &[], &[], &mut words), plain.is_ok()), (0, true));
        let times = calls(
            || _ = black_box(proved::read_lone(black_box(&bytes), &[], &[], &mut words)),
            || _ = black_box(record::read_lone(black_box(&bytes), Boards::OLD, &mut roster)),
        );
        table.add(&format!("reading the longest record, {order}"), n, times);
    }
}

// The ticket desk's reading of the same records: both sides give the roster as a part of the bytes.
fn desk(table: &mut Table) {
    for (order, n, bytes) in longest() {
        let (mut words, mut roster) = ([0; 4], Vec::with_capacity(128));
        let mut library = |bytes| (proved::read_desk(bytes, &[], &[], &mut words), proved::desk_roster(bytes, &words));
        let plain = record::read_desk(&bytes, Boards::OLD, &mut roster).expect("a record");
        assert_eq!(library(&bytes), (0, Some(plain.roster)));
        let times = calls(
            || _ = black_box(library(black_box(&bytes))),
            || _ = black_box(record::read_desk(black_box(&bytes), Boards::OLD, &mut roster)),
        );
        table.add(&format!("reading the longest record for the ticket desk, {order}"), n, times);
    }
}

// A group, its records in some order, and both recoveries with so many of them taken. Rows and buffers of both sides are on the heap,
// where they lie at multiples of 16 bytes.
pub struct Scene {
    group: Group,
    records: Vec<Vec<u8>>,
    pub library: Box<proved::Recovery>,
    plain: Recovery,
}

pub fn scene(seed: u64, full: Set, n: usize, percent: usize, taken: usize) -> Scene {
    let mut random = Random::new(seed);
    let truth = make::history_of(&mut random, full, n, percent);
    let group = Group { full, roster: make::ordered("random order", n), truth };
    let mut records: Vec<Vec<u8>> = (0..n).map(|p| group.record(p).bytes()).collect();
    random.shuffle(&mut records);
    let mut library = Box::new(proved::Recovery::zero());
    library.open(&group.roster);
    let mut plain = Recovery::new(&group.roster);
    for record in &records[..taken] {
        assert_eq!((library.offer(record), plain.offer(record).is_ok()), (0, true));
    }
    Scene { group, records, library, plain }
}

// Half of the members are back, each of which has heard about two others; with an open place.
fn half_back(full: Set, n: usize) -> (Scene, usize) {
    let scenes = (0..).map(|seed| scene(seed, full, n, 400 / n, n / 2));
    let open = |scene: &Scene| (0..n).rfind(|&place| scene.plain.ask(place) == Ok(Answer::Open));
    scenes.filter_map(|scene| open(&scene).map(|place| (scene, place))).next().expect("one of them all")
}

// Every board is changed: both recoveries are given the second serials, and the records have no others but in their rosters.
fn change_boards(scene: &mut Scene) {
    let roster = &scene.group.roster;
    let second = |place: usize| roster[place] ^ 1;
    for place in 0..roster.len() {
        assert_eq!((scene.library.give(place, second(place)), scene.plain.give(place, second(place))), (0, Ok(())));
    }
    for bytes in &mut scene.records {
        let record = record::read_lone(bytes, Boards::OLD, &mut Vec::new()).expect("a record");
        *bytes = Layout::by(record.kind, roster, record.own, record.mourned, second).bytes();
    }
}

// Every member's record, taken one after the other by a recovery that goes back to nobody returned each time.
fn offering(table: &mut Table, what: &str, full: Set, changed: bool) {
    for n in SIZES {
        let mut scene = scene(0, full, n, 50, 0);
        if changed {
            change_boards(&mut scene);
        }
        let Scene { records, mut library, mut plain, .. } = scene;
        for record in &records {
            assert_eq!((library.offer(record), plain.offer(record)), (0, Ok(Offer::Taken)));
        }
        let times = calls(
            || {
                library.reset();
                records.iter().for_each(|record| _ = black_box(library.offer(black_box(record))));
            },
            || {
                plain.reset();
                records.iter().for_each(|record| _ = black_box(plain.offer(black_box(record))));
            },
        );
        table.add(what, n, times);
    }
}

// All places, with half of the members back.
fn asking(table: &mut Table, kinds: &str, full: Set) {
    for n in SIZES {
        let (Scene { library, plain, .. }, _) = half_back(full, n);
        let times = calls(
            || (0..n).for_each(|place| _ = black_box(library.ask(black_box(place)))),
            || (0..n).for_each(|place| _ = black_box(plain.ask(black_box(place)))),
        );
        table.add(&format!("asking every place, {kinds}"), n, times);
    }
}

// All places in one call, with half of the members back.
fn listing(table: &mut Table, kinds: &str, full: Set) {
    for n in SIZES {
        let (Scene { library, plain, .. }, _) = half_back(full, n);
        let (mut theirs, mut out) = (vec![9; n], vec![9; n]);
        assert_eq!((library.list(&mut theirs), plain.list(&mut out)), (0, Ok(())));
        assert_eq!(theirs, out);
        let times =
            calls(|| _ = black_box(library.list(black_box(&mut theirs))), || _ = black_box(black_box(&plain).list(black_box(&mut out))));
        table.add(&format!("listing every place, {kinds}"), n, times);
    }
}

// How many fetches suffice and which place is next, with half of the members back.
fn fetching(table: &mut Table, kinds: &str, full: Set) {
    for n in SIZES {
        let (Scene { library, plain, .. }, _) = half_back(full, n);
        let (number, place) = plain.to_fetch().expect("an open place");
        assert_eq!(library.to_fetch(), proved::Fetching { number: number as u64, place: place as u64 });
        let times = calls(|| _ = black_box(black_box(&library).to_fetch()), || _ = black_box(black_box(&plain).to_fetch()));
        table.add(&format!("asking what to fetch, {kinds}"), n, times);
    }
}

// The longest game that is played out: nobody is back.
fn playing(table: &mut Table) {
    let Scene { library, plain, .. } = scene(0, 0, 4, 50, 0);
    assert_eq!((library.play(), game::play(&plain)), (proved::Game { refusal: 0, fetches: 4 }, Ok(4)));
    let times = calls(|| _ = black_box(black_box(&library).play()), || _ = black_box(game::play(black_box(&plain))));
    table.add("playing the game out, nobody back", 4, times);
}

// The last open place.
fn showing(table: &mut Table, kinds: &str, full: Set) {
    for n in SIZES {
        let (Scene { library, plain, .. }, place) = half_back(full, n);
        let (mut first, mut second) = (vec![0; 2048], vec![0; 2048]);
        assert_eq!((library.show(place, &mut first, &mut second), plain.show(place, &mut first, &mut second).is_ok()), (0, true));
        let (mut their_first, mut their_second) = (vec![0; 2048], vec![0; 2048]);
        let times = calls(
            || _ = black_box(library.show(black_box(place), &mut their_first, &mut their_second)),
            || _ = black_box(plain.show(black_box(place), &mut first, &mut second)),
        );
        table.add(&format!("showing a place, {kinds}"), n, times);
    }
}

// A history that fits, with half of the members back.
fn checking(table: &mut Table, kinds: &str, full: Set) {
    for n in SIZES {
        let Scene { group, library, plain, .. } = scene(0, full, n, 50, n / 2);
        let history = make::history_bytes(&group.truth);
        assert_eq!((library.check(&history), plain.check(&history)), (37, Ok(true)));
        let times = calls(|| _ = black_box(library.check(black_box(&history))), || _ = black_box(plain.check(black_box(&history))));
        table.add(&format!("checking a history that fits, {kinds}"), n, times);
    }
}
