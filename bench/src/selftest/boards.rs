// Board swaps, document 02, [2]: second serials given, found, and used by records.
use super::open;
use crate::make::{self, Group, Layout};
use crate::plain::Kind::{Full, Short};
use crate::plain::boards::Boards;
use crate::plain::boards::Which::{First, Second};
use crate::plain::record;
use crate::plain::recovery::{Offer, Offer::*, Recovery};
use crate::plain::set::Set;
use crate::plain::{Kind, Refusal};
use crate::random::Random;

// The bytes of a record, serial by serial.
pub fn bytes(kind: Kind, own: u32, roster: &[u32], mourned: &[u32]) -> Vec<u8> {
    let (count, named) = (roster.len() as u8, mourned.len() as u8);
    Layout { kind: kind as u8, own, count, roster: roster.to_vec(), named, mourned: mourned.to_vec() }.bytes()
}

// A recovery of 1, 2, .. n whose first places are given these second serials.
fn swapped(n: u32, seconds: &[u32]) -> Recovery {
    let mut r = Recovery::open(&(1..=n).collect::<Vec<_>>()).expect("a roster");
    for (place, &serial) in seconds.iter().enumerate() {
        assert_eq!(r.give(place, serial), Ok(()));
    }
    r
}

// One recovery of 101, 102, 103, and what it answers one after the other: 12, then 4, then 16.
pub fn given() -> u64 {
    let mut r = open(3);
    let record = bytes(Short, 101, &[101, 102, 103], &[102]);
    assert_eq!(r.offer(&record), Ok(Taken));
    let kept = (r.roster.clone(), r.returned, r.mourned, r.rows.clone());
    let mut wanted = vec![0; 3];
    let table = [
        ("12 before 4", 3, 0, 12),
        ("12 before 16", usize::MAX, 101, 12),
        ("0", 0, 0, 4),
        ("its own first", 0, 101, 16),
        ("the first of another", 0, 103, 16),
        ("a new one", 0, 201, 0),
        ("given twice", 0, 201, 16),
        ("the place has one", 0, 202, 16),
        ("4 before 16", 0, 0, 4),
        ("the second of another", 1, 201, 16),
        ("a place behind one without", 2, u32::MAX, 0),
        ("the second of a place behind", 1, u32::MAX, 16),
        ("the last that has none", 1, 1, 0),
    ];
    for (name, place, serial, answer) in table {
        assert_eq!(r.give(place, serial).err().unwrap_or(0), answer, "{name}");
        if answer == 0 {
            wanted[place] = serial;
        }
        assert_eq!(r.seconds, wanted, "{name}");
    }
    assert_eq!(kept, (r.roster.clone(), r.returned, r.mourned, r.rows.clone()));
    let mut out = vec![0; record.len()];
    assert_eq!((r.write(0, &mut out, 0), &out), (Ok(record.len()), &record));
    table.len() as u64 + 3
}

// Finding says the place and which of its two serials it was; 128 second serials share their low bits.
pub fn found() -> u64 {
    let mut r = open(2);
    assert_eq!([101, 102, 201, 0].map(|x| r.find(x)), [Some((0, First)), Some((1, First)), None, None]);
    assert_eq!(r.give(1, 201), Ok(()));
    assert_eq!([101, 102, 201, 202, 0].map(|x| r.find(x)), [Some((0, First)), Some((1, First)), Some((1, Second)), None, None]);
    let firsts: Vec<u32> = (1..=128).map(|k| k * 65_536).collect();
    let mut r = Recovery::open(&firsts).unwrap();
    for (place, &first) in firsts.iter().enumerate().rev() {
        // known are all first serials, and the second one given last
        let known = [firsts[0], firsts[127], firsts.get(place + 1).map_or(first, |next| next + 7)];
        assert_eq!(known.map(|x| r.give(place, x)), [Err(16); 3]);
        assert_eq!((r.find(first + 7), r.give(place, first + 7)), (None, Ok(())));
    }
    for (place, &first) in firsts.iter().enumerate() {
        assert_eq!([first, first + 7, first + 8].map(|x| r.find(x)), [Some((place, First)), Some((place, Second)), None]);
        assert_eq!(r.give(place, first + 8), Err(16));
    }
    10 + 128 * 9
}

// First and second serials of a group, a record's own serial, roster and mourned serials, and its own place and set, or the refusal.
type Case<'a> = (&'a [u32], &'a [u32], u32, &'a [u32], &'a [u32], Result<(usize, Set), Refusal>);

// Records of a group of 1 and 2 with the second serials 8 and 9.
const OF_GROUP: &[Case] = &[
    (&[1, 2], &[8, 9], 1, &[1, 2], &[2], Ok((0, 0b10))),
    (&[1, 2], &[8, 9], 8, &[1, 2], &[9], Ok((0, 0b10))),
    (&[1, 2], &[8, 9], 9, &[1, 2], &[8], Ok((1, 0b01))),
    (&[1, 2], &[8, 9], 2, &[1, 2], &[8, 2], Ok((1, 0b11))),
    (&[1, 2], &[8, 9], 8, &[1, 2], &[1], Ok((0, 0b01))),
    // 7 goes by places
    (&[1, 2], &[8, 9], 1, &[1, 2], &[1, 8], Err(7)),
    (&[1, 2], &[8, 9], 1, &[1, 2], &[8, 8], Err(7)),
    (&[1, 2], &[8, 9], 1, &[1, 2], &[9, 1], Err(7)),
    (&[1, 2], &[8, 9], 1, &[1, 2], &[9, 8], Err(7)),
    (&[1, 2], &[8, 9], 1, &[2, 1], &[9, 8], Ok((1, 0b11))),
    (&[1, 2], &[8, 9], 1, &[2, 1], &[8, 9], Err(7)),
    // 4 and 6 before it, and more mourned than members before all
    (&[1, 2], &[8, 9], 0, &[1, 2], &[], Err(4)),
    (&[1, 2], &[8, 9], 7, &[1, 2], &[], Err(6)),
    (&[1, 2], &[8, 9], 1, &[1, 2], &[9, 0], Err(4)),
    (&[1, 2], &[8, 9], 1, &[1, 2], &[9, 7], Err(6)),
    (&[1, 2], &[8, 9], 1, &[1, 2], &[1, 8, 9], Err(3)),
    // a serial of the record's own roster is itself
    (&[1, 2], &[8, 9], 1, &[1, 8], &[1, 8], Ok((0, 0b11))),
    (&[1, 2], &[8, 9], 8, &[1, 8], &[], Ok((1, 0))),
    (&[1, 2], &[8, 9], 8, &[8, 1], &[8, 1], Ok((0, 0b11))),
    (&[1, 2], &[8, 9], 9, &[8, 2], &[8, 9], Ok((1, 0b11))),
    // second to one that does not stand there
    (&[1, 2], &[8, 9], 9, &[1, 3], &[], Err(6)),
    (&[1, 2], &[8, 9], 1, &[1, 3], &[1, 9], Err(6)),
    // the roster is never read by second serials: these two are different there, and one may not stand twice
    (&[1, 2], &[8, 9], 1, &[1, 8, 8], &[], Err(5)),
    (&[1, 2], &[8, 9], 1, &[1, 0], &[], Err(4)),
];

// Lists that no recovery has: of different lengths, with zeros and repeats.
const OF_LISTS: &[Case] = &[
    (&[], &[], 1, &[1, 2], &[2], Ok((0, 0b10))),
    (&[], &[], 8, &[1, 2], &[], Err(6)),
    (&[1, 2], &[], 8, &[1, 2], &[], Err(6)),
    (&[], &[8, 9], 8, &[1, 2], &[], Err(6)),
    (&[], &[8, 9], 1, &[1, 2], &[2], Ok((0, 0b10))),
    (&[1], &[8, 9], 8, &[1, 2], &[8], Ok((0, 0b01))),
    (&[1], &[8, 9], 8, &[1, 2], &[9], Err(6)),
    (&[1, 2], &[8], 8, &[1, 2], &[8], Ok((0, 0b01))),
    (&[1, 2], &[8], 8, &[1, 2], &[9], Err(6)),
    (&[1, 2], &[0, 9], 1, &[1, 2], &[0], Err(4)),
    (&[1, 2], &[0, 9], 1, &[1, 2], &[9], Ok((0, 0b10))),
    (&[0, 2], &[8, 9], 1, &[1, 2], &[8], Err(6)),
    // the first position counts, even where only a later one would do
    (&[1, 2], &[8, 8], 8, &[1, 2], &[8], Ok((0, 0b01))),
    (&[3, 1], &[8, 8], 8, &[1, 2], &[], Err(6)),
    // what a serial counts as is looked up no further
    (&[1, 8], &[8, 9], 9, &[1, 2], &[], Err(6)),
    // second to itself, or to one that is second too
    (&[8, 2], &[8, 9], 8, &[1, 2], &[], Err(6)),
    (&[2, 1], &[1, 2], 1, &[1, 2], &[2], Ok((0, 0b10))),
];

pub fn read() -> u64 {
    for case in OF_GROUP.iter().chain(OF_LISTS) {
        let &(firsts, seconds, own, roster, mourned, wanted) = case;
        let record = bytes(Short, own, roster, mourned);
        let got = record::read_lone(&record, Boards { firsts, seconds }, &mut Vec::new());
        assert_eq!(got.map(|record| (record.own, record.mourned)), wanted, "{case:?}");
        let followed = [&record[..], &[5]].concat();
        let got = record::read_lone(&followed, Boards { firsts, seconds }, &mut Vec::new());
        assert_eq!(got, Err(wanted.err().unwrap_or(8)), "{case:?}, with a byte after it");
    }
    // longer lists than any roster
    let (firsts, seconds): (Vec<u32>, Vec<u32>) = (1..=300).map(|k| (k, 1_000 + k)).unzip();
    let record = bytes(Full, 1_299, &[200, 299], &[1_200, 299]);
    let got = record::read_lone(&record, Boards { firsts: &firsts, seconds: &seconds }, &mut Vec::new());
    assert_eq!(got.map(|record| (record.own, record.mourned)), Ok((1, 0b11)));
    2 * (OF_GROUP.len() + OF_LISTS.len()) as u64 + 1
}

// Records offered one after the other to a group of 1, 2 and 3: own serial, roster, mourned serials, and the answer.
type Step<'a> = (u32, &'a [u32], &'a [u32], Result<Offer, Refusal>);

fn offers(r: &mut Recovery, kind: Kind, steps: &[Step]) -> u64 {
    for (own, roster, mourned, wanted) in steps {
        assert_eq!(r.offer(&bytes(kind, *own, roster, mourned)), *wanted, "{own} of {roster:?} mourns {mourned:?}");
    }
    steps.len() as u64
}

pub fn offered() -> u64 {
    let all: &[u32] = &[1, 2, 3];
    let mut checks = 0;
    for kind in [Full, Short] {
        // another roster is another group, also where second serials stand in it: such a record is read as it stands
        let mut r = swapped(2, &[8, 9]);
        checks += offers(&mut r, kind, &[(1, &[1, 8], &[1, 8], Err(9)), (2, &[8, 2], &[], Err(9)), (8, &[8, 9], &[], Err(9))]);
        checks += offers(&mut r, kind, &[(1, &[1, 2], &[1, 8], Err(7)), (8, &[1, 2], &[7], Err(6)), (8, &[1, 3], &[9], Err(6))]);
        assert_eq!((r.returned, r.mourned), (0, 0));
        // repeated and 10 go by places
        let mut r = swapped(3, &[7, 8, 9]);
        checks += offers(&mut r, kind, &[(7, all, &[8, 3], Ok(Taken)), (1, all, &[2, 9], Ok(Repeated)), (7, all, &[2, 3], Ok(Repeated))]);
        checks += offers(&mut r, kind, &[(1, all, &[9], Err(10)), (7, all, &[8], Err(10)), (7, all, &[7], Err(10))]);
        // one that mourns itself by its other serial, and a circle of two
        checks +=
            offers(&mut r, kind, &[(8, all, &[2], Err(11)), (2, all, &[8], Err(11)), (8, all, &[1], Err(11)), (9, all, &[7], Err(11))]);
        checks += offers(&mut r, kind, &[(9, all, &[], Ok(Taken)), (2, all, &[], Ok(Taken))]);
        assert_eq!((r.returned, r.rows.clone(), r.seconds.clone()), (0b111, vec![0b110, 0, 0], vec![7, 8, 9]));
        // a record is judged by the second serials given before it, and what was taken stays
        let mut r = swapped(3, &[]);
        checks += offers(&mut r, kind, &[(1, all, &[2], Ok(Taken)), (8, all, &[], Err(6)), (3, all, &[8], Err(6))]);
        assert_eq!((r.give(1, 8), r.returned, r.rows.clone()), (Ok(()), 0b001, vec![0b010, 0, 0]));
        checks += offers(&mut r, kind, &[(1, all, &[8], Ok(Repeated)), (8, all, &[], Ok(Taken)), (3, all, &[8], Ok(Taken))]);
        // the writer uses first serials
        let mut out = vec![0; 23];
        assert_eq!((r.write(2, &mut out, 0), out), (Ok(23), bytes(kind, 3, all, &[2])));
        checks += 4;
    }
    checks
}

// The same records by either serials, to a recovery that was given second ones and to one that was not: one meaning.
pub fn meaning() -> u64 {
    let mut random = Random::new(7);
    let mut checks = 0;
    for _ in 0..2_000 {
        let group = Group::any(&mut random);
        let n = group.roster.len();
        let mut old = Recovery::new(&group.roster);
        let mut new = old.clone();
        for _ in 0..random.pick(&[1, n, 2 * n]) {
            let serial = make::board(&mut random, &new.roster, &new.seconds);
            let _ = new.give(random.below(n), serial);
        }
        for _ in 0..20 {
            let place = random.below(n);
            let mourned = if random.chance(80) { group.truth[place] } else { 1 << random.below(n) };
            let either = |p: usize| if new.seconds[p] != 0 && random.chance(50) { new.seconds[p] } else { group.roster[p] };
            let by_either = Layout::by(group.kind(place), &group.roster, place, mourned, either).bytes();
            let by_first = Layout::new(group.kind(place), &group.roster, place, mourned).bytes();
            let answer = new.offer(&by_either);
            assert_eq!(answer, old.offer(&by_first));
            assert_eq!((new.returned, new.full, new.mourned, new.earlier), (old.returned, old.full, old.mourned, old.earlier));
            assert_eq!(new.rows, old.rows);
            if answer.is_ok() {
                let mut out = vec![0; by_first.len()];
                assert_eq!((new.write(place, &mut out, 0), &out), (Ok(out.len()), &by_first));
            }
            let reading = |bytes: &[u8]| record::read_lone(bytes, new.boards(), &mut Vec::new());
            assert_eq!(reading(&by_either), reading(&by_first));
            checks += 3 + answer.is_ok() as u64;
        }
    }
    checks
}
