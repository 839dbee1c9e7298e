// Lists of calls on a recovery.
use super::{Run, garbled, list_length, noise, put_row, row_of, set_of, words};
use crate::make::{self, Group};
use crate::plain::Refusal;
use crate::plain::boards::Which;
use crate::plain::game;
use crate::plain::recovery::{Answer, Offer, Recovery, Showing};
use crate::plain::set::{Set, below, members};
use crate::proved::{self, ASKED, Fetching, Found, Game};

// The library's recovery, what it has to be, and the plain one.
struct Pair {
    library: proved::Recovery,
    wanted: proved::Recovery,
    plain: Recovery,
    group: Group,
    // it was opened, and not made up
    opened: bool,
}

// What a recovery has to be after an opening.
fn just_opened(list: &[u32]) -> proved::Recovery {
    let mut recovery = proved::Recovery::zero();
    recovery.head[0] = list.len() as u64;
    recovery.serials[..list.len()].copy_from_slice(list);
    recovery
}

fn all_noise(run: &mut Run) -> proved::Recovery {
    let seconds = [0; 128].map(|_: u32| run.random.next() as u32);
    let proved::Day { serials, rows, .. } = noise(&mut run.random);
    proved::Recovery { head: [0; 9].map(|_: u64| run.random.next()), serials, seconds, rows }
}

pub fn list(run: &mut Run) {
    for _ in 0..run.random.below(3) {
        try_open(run);
    }
    let group = Group::any(&mut run.random);
    let mut pair = if run.random.chance(15) { unmade(run, group) } else { open(run, group) };
    for _ in 0..run.random.pick(&[0, 0, 3, pair.group.roster.len()]) {
        give(run, &mut pair);
        run.same("the recovery afterwards", &pair.wanted, &pair.library);
    }
    for _ in 0..list_length(&mut run.random) {
        match run.random.below(100) {
            0..40 => offer(run, &mut pair),
            40..44 => give(run, &mut pair),
            44..53 => ask(run, &pair),
            53..58 => find(run, &pair),
            58..65 => sets(run, &pair),
            65..71 => list_all(run, &pair),
            71..76 => to_fetch(run, &pair),
            76..78 => play(run, &pair),
            78..86 => show(run, &pair),
            86..95 => check(run, &pair),
            _ => write(run, &pair),
        }
        run.same("the recovery afterwards", &pair.wanted, &pair.library);
    }
    for place in 0..pair.plain.roster.len() {
        ask_one(run, &pair, place);
    }
    list_all(run, &pair);
    to_fetch(run, &pair);
    run.same("the recovery afterwards", &pair.wanted, &pair.library);
}

// Fixed games: up to four members with nobody back, of which no list has the longest, and five, which are refused.
pub fn games(run: &mut Run) {
    for (n, back) in [(1, 0), (2, 0), (3, 0), (4, 0), (5, 4), (5, 0)] {
        let mut pair = open(run, Group { full: 0, roster: (101..101 + n).collect(), truth: vec![0; n as usize] });
        for place in 0..back {
            let record = pair.group.record(place).bytes();
            offer_bytes(run, &mut pair, &record);
        }
        to_fetch(run, &pair);
        game(run, &pair);
        run.same("the recovery afterwards", &pair.wanted, &pair.library);
    }
}

// An opening that is refused often.
fn try_open(run: &mut Run) {
    let list = make::list(&mut run.random);
    let mut library = all_noise(run);
    let before = library.clone();
    run.begin("open", &[list.len()], &[]);
    let plain = Recovery::open(&list);
    let code = library.open(&list);
    run.answer(plain.as_ref().map_or_else(|refusal| *refusal, |_| 0) as u64, code as u64);
    run.same("the recovery afterwards", &if plain.is_ok() { just_opened(&list) } else { before }, &library);
}

fn open(run: &mut Run, group: Group) -> Pair {
    let mut library = all_noise(run);
    run.begin("open", &[group.roster.len()], &[]);
    let code = library.open(&group.roster);
    run.answer(0, code as u64);
    let wanted = just_opened(&group.roster);
    run.same("the recovery afterwards", &wanted, &library);
    let plain = Recovery::open(&group.roster).expect("a roster");
    Pair { library, wanted, plain, group, opened: true }
}

// A recovery that no call has made, and the plain one that it stands for: the rows of those that are back, the full ones and the second
// serials, as far as the roster goes, and whatever is kept as the mourned and the earlier sets.
fn unmade(run: &mut Run, group: Group) -> Pair {
    let parts = garbled(&mut run.random, 1, &group.roster);
    let n = parts.head[1].min(128) as usize;
    let mut plain = Recovery::new(&parts.serials[..n]);
    let returned = set_of(&parts.head[2..]);
    let full = run.random.bits() & run.random.pick(&[0, Set::MAX, returned, !returned]);
    (plain.returned, plain.full) = (returned & below(n), full & below(n));
    members(plain.returned).for_each(|p| plain.rows[p] = row_of(&parts.rows, p) & below(n));
    let mut seconds = [0; 128].map(|_: u32| run.random.next() as u32);
    let percent = run.random.pick(&[0, 30, 100]);
    seconds[..group.roster.len()].copy_from_slice(&make::seconds(&mut run.random, &group.roster, percent));
    plain.seconds.copy_from_slice(&seconds[..n]);
    plain.mourned = about(run, in_rows(&plain, plain.returned));
    plain.earlier = about(run, in_rows(&plain, plain.returned & plain.full));
    let head = head(parts.head[1], [returned, full, plain.mourned, plain.earlier]);
    let library = proved::Recovery { head, serials: parts.serials, seconds, rows: parts.rows };
    Pair { wanted: library.clone(), library, plain, group, opened: false }
}

// The nine words: a count and four sets.
fn head(count: u64, sets: [Set; 4]) -> proved::Head {
    let mut head = [count; 9];
    sets.iter().zip(head[1..].chunks_exact_mut(2)).for_each(|(&set, part)| part.copy_from_slice(&words(set)));
    head
}

// A set, or one that has to do with it more or less.
fn about(run: &mut Run, set: Set) -> Set {
    let some = run.random.bits() & run.random.bits();
    run.random.pick(&[set, set | some, set & some, some, 0])
}

// All that stand in the rows of these.
fn in_rows(plain: &Recovery, places: Set) -> Set {
    members(places).fold(0, |all, p| all | plain.rows[p])
}

fn offer(run: &mut Run, pair: &mut Pair) {
    // of a recovery that no call has made those behind the roster too
    let seconds = if pair.opened { &pair.plain.seconds[..] } else { &pair.library.seconds[..] };
    let bytes = make::offer(&mut run.random, &pair.group, seconds);
    offer_bytes(run, pair, &bytes);
}

fn offer_bytes(run: &mut Run, pair: &mut Pair, bytes: &[u8]) {
    run.begin("offer", &[], bytes);
    let (back, kept) = (pair.plain.returned, pair.plain.earlier);
    if !pair.opened {
        // a record is judged by the rows, where the plain one may look at the earlier set first
        pair.plain.earlier = in_rows(&pair.plain, back & pair.plain.full);
    }
    let full = pair.plain.full;
    let plain = match pair.plain.offer(bytes) {
        Ok(Offer::Taken) => 0,
        Ok(Offer::Repeated) => 32,
        Err(refusal) => refusal,
    };
    let library = pair.library.offer(bytes);
    run.answer(plain as u64, library as u64);
    let taken = pair.plain.returned & !back;
    if !pair.opened {
        let by_full = if bytes.first() == Some(&1) { taken } else { 0 };
        pair.plain.earlier = kept | in_rows(&pair.plain, by_full);
    }
    let [returned, marked] = [1, 3].map(|k| set_of(&pair.wanted.head[k..]));
    let sets = [returned | taken, marked | pair.plain.full & !full, pair.plain.mourned, pair.plain.earlier];
    pair.wanted.head = head(pair.wanted.head[0], sets);
    members(taken).for_each(|own| put_row(&mut pair.wanted.rows, own, pair.plain.rows[own]));
}

// What asking gives, as a number.
fn number(asked: Result<Answer, Refusal>) -> u8 {
    match asked {
        Ok(Answer::Last) => 33,
        Ok(Answer::NotLast) => 34,
        Ok(Answer::Open) => 35,
        Err(refusal) => refusal,
    }
}

fn ask_one(run: &mut Run, pair: &Pair, place: usize) {
    run.begin("ask", &[place], &[]);
    run.answer(number(pair.plain.ask(place)) as u64, pair.library.ask(place) as u64);
}

fn ask(run: &mut Run, pair: &Pair) {
    let place = make::place(&mut run.random, pair.plain.roster.len());
    ask_one(run, pair, place);
}

fn find(run: &mut Run, pair: &Pair) {
    // second serials behind the roster are not known either
    let seconds: Vec<u32> = pair.library.seconds.iter().copied().filter(|&x| x != 0).collect();
    let known = if seconds.is_empty() || run.random.chance(40) { run.random.pick(&pair.group.roster) } else { run.random.pick(&seconds) };
    let any = run.random.next() as u32;
    let serial = run.random.pick(&[known, known, known, known ^ 1 << 16, known ^ 1, known.swap_bytes(), 0, 1, any, u32::MAX]);
    run.begin("find", &[serial as usize], &[]);
    let plain = match pair.plain.find(serial) {
        Some((place, Which::First)) => Found { answer: 39, place: place as u64 },
        Some((place, Which::Second)) => Found { answer: 40, place: place as u64 },
        None => Found { answer: 41, place: 128 },
    };
    let library = pair.library.find(serial);
    run.same("found", &plain, &library);
    run.answer(plain.answer, library.answer);
}

// Gives a second serial, mostly to a place that has none.
fn give(run: &mut Run, pair: &mut Pair) {
    let n = pair.plain.roster.len();
    let mut place = make::place(&mut run.random, n);
    if run.random.chance(70) {
        place = (place..n).find(|&p| pair.plain.seconds[p] == 0).unwrap_or(place);
    }
    let serial = make::board(&mut run.random, &pair.group.roster, &pair.plain.seconds);
    run.begin("give", &[place, serial as usize], &[]);
    let plain = pair.plain.give(place, serial).err().unwrap_or(0);
    let library = pair.library.give(place, serial);
    run.answer(plain as u64, library as u64);
    if plain == 0 {
        pair.wanted.seconds[place] = serial;
    }
}

fn sets(run: &mut Run, pair: &Pair) {
    let noise = words(run.random.bits());
    let (mut unmourned, mut absent) = (noise, noise);
    run.begin("unmourned", &[], &[]);
    pair.library.unmourned(&mut unmourned);
    a_set(run, pair.plain.unmourned(), unmourned);
    run.begin("unmourned_absent", &[], &[]);
    pair.library.unmourned_absent(&mut absent);
    a_set(run, pair.plain.unmourned_absent(), absent);
    run.begin("unmourned_count", &[], &[]);
    let (plain, library) = (pair.plain.unmourned_count(), pair.library.unmourned_count());
    run.same("count", &plain, &library);
    run.answer((plain == 0) as u64, (library == 0) as u64);
    run.begin("settled", &[], &[]);
    run.answer(pair.plain.settled() as u64, pair.library.settled() as u64);
}

// Two words of places, counted by whether there is none.
fn a_set(run: &mut Run, plain: Set, library: [u64; 2]) {
    run.same("set", &words(plain), &library);
    run.answer((plain == 0) as u64, (library == [0, 0]) as u64);
}

// All answers at once, with room for them or too little.
fn list_all(run: &mut Run, pair: &Pair) {
    let n = pair.plain.roster.len();
    let length = make::length(&mut run.random, n);
    let (mut out, mut theirs) = run.buffers(length);
    run.begin("list", &[length], &[]);
    let plain = pair.plain.list(out.part()).err().unwrap_or(0);
    let library = pair.library.list(theirs.part());
    run.answer(plain as u64, library as u64);
    run.same("the buffer afterwards", &out, &theirs);
    if plain != 0 {
        return;
    }
    // both list the same, so each lists what it answers if it lists what the other answers
    for place in 0..n {
        let [listed, theirs] = [&mut out, &mut theirs].map(|buffer| ASKED[buffer.part()[place] as usize]);
        run.same("a place asked, and listed", &number(pair.plain.ask(place)), &theirs);
        run.same("a place listed, and asked", &listed, &pair.library.ask(place));
    }
}

// How many fetches suffice and which place is next, counted by whether there is none.
fn to_fetch(run: &mut Run, pair: &Pair) {
    run.begin("to_fetch", &[], &[]);
    let plain = match pair.plain.to_fetch() {
        Some((number, place)) => Fetching { number: number as u64, place: place as u64 },
        None => Fetching { number: 0, place: 128 },
    };
    let library = pair.library.to_fetch();
    run.same("what to fetch", &plain, &library);
    run.answer((plain.number == 0) as u64, (library.number == 0) as u64);
}

// A game, but for those of four with nobody back, which are long.
fn play(run: &mut Run, pair: &Pair) {
    if pair.plain.roster.len() != 4 || pair.plain.returned != 0 {
        game(run, pair);
    }
}

// A game played out, counted by how many fetches it lasts, or by its refusal.
fn game(run: &mut Run, pair: &Pair) {
    run.begin("play", &[], &[]);
    let plain = match game::play(&pair.plain) {
        Ok(fetches) => Game { refusal: 0, fetches: fetches as u64 },
        Err(refusal) => Game { refusal: refusal as u64, fetches: 0 },
    };
    let library = pair.library.play();
    run.same("the game", &plain, &library);
    run.answer(plain.refusal + plain.fetches, library.refusal + library.fetches);
    if pair.opened && plain.refusal == 0 {
        run.same("fetches told, and played", &pair.library.to_fetch().number, &library.fetches);
    }
}

fn show(run: &mut Run, pair: &Pair) {
    let n = pair.plain.roster.len();
    let rows = 16 * n;
    let mut place = make::place(&mut run.random, n);
    if run.random.chance(50) {
        // the next open place, if there is one
        place = (place..n).find(|&p| pair.plain.ask(p) == Ok(Answer::Open)).unwrap_or(place);
    }
    let lengths = [make::length(&mut run.random, rows), make::length(&mut run.random, rows)];
    let (mut first, mut their_first) = run.buffers(lengths[0]);
    let (mut second, mut their_second) = run.buffers(lengths[1]);
    run.begin("show", &[place, lengths[0], lengths[1]], &[]);
    let plain = match pair.plain.show(place, first.part(), second.part()) {
        Ok(Showing::Shown) => {
            as_they_stand(pair, first.part(), second.part());
            0
        }
        Ok(Showing::Decided) => 36,
        Err(refusal) => refusal,
    };
    let library = pair.library.show(place, their_first.part(), their_second.part());
    run.answer(plain as u64, library as u64);
    run.same("the first buffer afterwards", &first, &their_first);
    run.same("the second buffer afterwards", &second, &their_second);
}

// Where no call has made the recovery, its rows are laid as they stand, those of absent places and bits off the roster too. The
// row that differs is the lowest blocker's.
fn as_they_stand(pair: &Pair, first: &mut [u8], second: &mut [u8]) {
    if pair.opened {
        return;
    }
    for place in 0..pair.plain.roster.len() {
        let row = row_of(&pair.wanted.rows, place);
        if row_of(first, place) == row_of(second, place) {
            put_row(second, place, row);
        }
        put_row(first, place, row);
    }
}

// Rows that fit mostly, but for a bit here and there: the recorded ones, those shown, the true ones, or noise.
fn some_history(run: &mut Run, pair: &Pair) -> Vec<u8> {
    let n = pair.plain.roster.len();
    let mut rows = pair.plain.rows.clone();
    match run.random.below(8) {
        0 => rows.fill_with(|| run.random.bits() & below(n)),
        1..3 => {
            let (mut first, mut second) = (vec![0; 16 * n], vec![0; 16 * n]);
            let place = run.random.below(n + 1);
            let _ = pair.plain.show(place, &mut first, &mut second);
            rows = second.chunks_exact(16).map(|x| Set::from_le_bytes(x.try_into().expect("16 bytes"))).collect();
        }
        3..6 if pair.group.truth.len() == n => {
            let absent = below(n) & !pair.plain.returned;
            members(absent).for_each(|p| rows[p] = pair.group.truth[p]);
        }
        _ => {}
    }
    for _ in 0..run.random.below(3) {
        if n > 0 && run.random.chance(30) {
            let p = run.random.below(n);
            rows[p] ^= 1 << if run.random.chance(80) { run.random.below(n) } else { run.random.below(128) };
        }
    }
    make::history_bytes(&rows)
}

fn check(run: &mut Run, pair: &Pair) {
    let mut history = some_history(run, pair);
    let length = if run.random.chance(70) { history.len() } else { make::length(&mut run.random, history.len()) };
    history.resize_with(length, || run.random.next() as u8);
    run.begin("check", &[length], &history);
    let plain = match pair.plain.check(&history) {
        Ok(true) => 37,
        Ok(false) => 38,
        Err(refusal) => refusal,
    };
    run.answer(plain as u64, pair.library.check(&history) as u64);
}

fn write(run: &mut Run, pair: &Pair) {
    let plain = |place, out: &mut [u8], at| pair.plain.write(place, out, at);
    let library = |place, out: &mut [u8], at| pair.library.write(place, out, at);
    run.write("write", &pair.plain.rows, plain, library);
}
