// The answers against all histories of small rosters, and against days that end.
use super::{fetches, open};
use crate::make::{self, Layout};
use crate::plain::Kind::{self, Full, Short};
use crate::plain::day::{Day, Event};
use crate::plain::recovery::{Answer::*, Offer::*, Recovery, Showing};
use crate::plain::set::{Set, has, members};
use crate::random::Random;

// All that are before each place, by the definition: closed in rounds.
fn before(rows: &[Set]) -> Vec<Set> {
    let mut before = rows.to_vec();
    for _ in rows {
        before = before.iter().map(|&row| members(row).fold(row, |all, m| all | before[m])).collect();
    }
    before
}

// Rows, and all that are before each place by them.
struct Rows {
    rows: Vec<Set>,
    before: Vec<Set>,
}

impl Rows {
    fn is_history(&self) -> bool {
        self.before.iter().enumerate().all(|(p, &before)| !has(before, p))
    }

    // Whether this can be the row of a place that has such a record.
    fn has_record(&self, p: usize, (kind, row): Record) -> bool {
        self.rows[p] == row && (kind == Short || self.before[p] & !row == 0)
    }

    fn fits(&self, pile: &[Option<Record>]) -> bool {
        self.is_history() && pile.iter().enumerate().all(|(p, record)| record.is_none_or(|record| self.has_record(p, record)))
    }
}

// A record of some place: its kind and its mourned set.
type Record = (Kind, Set);

// The rows that a number spells, n bits each.
fn rows_of(n: usize, number: usize) -> Vec<Set> {
    (0..n).map(|p| (number >> (p * n)) as Set & ((1 << n) - 1)).collect()
}

// A pile: for each place its record, or none. All piles of n places that some history fits are tried in every call.
pub fn enumeration() -> u64 {
    let mut checks = 0;
    for n in 1..=3 {
        let all: Vec<Rows> = (0..1 << (n * n)).map(|x| rows_of(n, x)).map(|rows| Rows { before: before(&rows), rows }).collect();
        let choices = 2 * (1usize << n) + 1;
        let choice = |number: usize| number.checked_sub(1).map(|k| (if k % 2 == 0 { Full } else { Short }, (k / 2) as Set));
        for number in 0..choices.pow(n as u32) {
            let pile: Vec<Option<Record>> = (0..n as u32).map(|p| choice(number / choices.pow(p) % choices)).collect();
            checks += pile_checks(&pile, &all);
        }
    }
    checks
}

fn pile_checks(pile: &[Option<Record>], all: &[Rows]) -> u64 {
    let n = pile.len();
    let fitting: Vec<&Rows> = all.iter().filter(|rows| rows.fits(pile)).collect();
    if fitting.is_empty() {
        return 0;
    }
    let mut r = open(n as u32);
    let bytes = |p: usize, (kind, row): Record| Layout::new(kind, &(101..101 + n as u32).collect::<Vec<_>>(), p, row).bytes();
    for (p, record) in pile.iter().enumerate() {
        if let Some(record) = record {
            assert_eq!(r.offer(&bytes(p, *record)), Ok(Taken));
        }
    }
    for p in 0..n {
        for record in (0..1 << n).flat_map(|row| [(Full, row), (Short, row)]) {
            let wanted = match pile[p] {
                Some(own) if own == record => Ok(Repeated),
                Some(_) => Err(10),
                None if fitting.iter().any(|rows| rows.has_record(p, record)) => Ok(Taken),
                None => Err(11),
            };
            assert_eq!(r.clone().offer(&bytes(p, record)), wanted, "{pile:?} {p} {record:?}");
        }
    }
    let last_in = |rows: &[Set], p: usize| rows.iter().all(|&row| !has(row, p));
    let mut listed = vec![9; n];
    assert_eq!(r.list(&mut listed), Ok(()));
    for (p, &byte) in listed.iter().enumerate() {
        let count = fitting.iter().filter(|rows| last_in(&rows.rows, p)).count();
        let wanted = if count == fitting.len() {
            Last
        } else if count == 0 {
            NotLast
        } else {
            Open
        };
        assert_eq!((r.ask(p), byte), (Ok(wanted), wanted as u8), "{pile:?} {p}");
        let (mut a, mut b) = (vec![1; 16 * n], vec![1; 16 * n]);
        assert_eq!(r.show(p, &mut a, &mut b), Ok(if wanted == Open { Showing::Shown } else { Showing::Decided }));
        if wanted == Open {
            let rows = |bytes: &[u8]| bytes.chunks(16).map(|x| Set::from_le_bytes(x.try_into().unwrap())).collect::<Vec<_>>();
            let (a, b) = (rows(&a), rows(&b));
            let fit = |history: &Vec<Set>| fitting.iter().any(|rows| rows.rows == *history);
            assert!(fit(&a) && last_in(&a, p) && fit(&b) && !last_in(&b, p), "{pile:?} {p}");
        }
    }
    for rows in all {
        assert_eq!(r.check(&make::history_bytes(&rows.rows)), Ok(rows.fits(pile)), "{pile:?} {:?}", rows.rows);
    }
    let unmourned = (0..n).filter(|&p| r.ask(p) != Ok(NotLast)).fold(0, |set, p| set | 1 << p);
    assert_eq!(
        (r.unmourned(), r.unmourned_absent(), r.unmourned_count()),
        (unmourned, unmourned & !r.returned, unmourned.count_ones() as usize)
    );
    assert_eq!(r.settled(), (0..n).all(|p| r.ask(p) != Ok(Open)));
    (2 * n + 2 * n * (1 << n) + all.len() + 4) as u64 + fetches::guided(&r)
}

// Days that end: every record is taken in any order, and what is answered on the way is true of the day.
pub fn days() -> u64 {
    let mut random = Random::new(6);
    let mut checks = 0;
    let stop = |place| Event { kind: 1, place, other: usize::MAX };
    let mut day = Day::open(2, &[7, 8, 9]).unwrap();
    assert_eq!(day.play(&[stop(0), Event { kind: 2, place: 1, other: 0 }, stop(0), stop(1)]), (2, Err(14)));
    assert_eq!((day.stopped, &day.rows[..]), (1, &[0, 1, 0][..]));
    let hear = |place, other| Event { kind: 2, place, other };
    for (event, wanted) in [
        (hear(1, 1), 14),
        (hear(0, 0), 14),
        (hear(3, 0), 12),
        (hear(0, 3), 12),
        (hear(usize::MAX, 0), 12),
        (stop(3), 12),
        (Event { kind: 0, place: 9, other: 9 }, 14),
    ] {
        assert_eq!(day.event(event), Err(wanted), "{event:?}");
    }
    for _ in 0..3_000 {
        let roster = make::roster(&mut random);
        let n = roster.len();
        let mut day = Day::open(random.pick(&[1, 2]), &roster).unwrap();
        let percent = random.pick(&[5, 30, 80]);
        while day.stopped.count_ones() < n as u32 {
            let kind = if random.chance(percent) { 1 } else { 2 };
            let _ = day.event(Event { kind, place: random.below(n), other: random.below(n) });
        }
        let mut r = Recovery::open(&roster).unwrap();
        let mut order: Vec<usize> = (0..n).collect();
        random.shuffle(&mut order);
        for p in order {
            let mut out = [0; 1_031];
            let end = day.write(p, &mut out, 0).unwrap();
            assert_eq!(r.offer(&out[..end]), Ok(Taken));
            for i in 0..n {
                let last = day.rows.iter().all(|&row| !has(row, i));
                assert!(r.ask(i) == Ok(Open) || r.ask(i) == Ok(if last { Last } else { NotLast }));
                checks += 1;
            }
        }
        assert!(r.settled());
    }
    checks
}
