// Document 01's cases, and calls at their borders.
use super::open;
use crate::make::Layout;
use crate::plain::Kind::{self, Full, Short};
use crate::plain::recovery::{Answer, Answer::*, Offer::*, Recovery, Showing};
use crate::plain::set::Set;

fn set(controllers: &[usize]) -> Set {
    controllers.iter().fold(0, |set, c| set | 1 << (c - 1))
}

// Offers the record of a controller, counted from 1, and gives 0 for taken.
pub fn offer(r: &mut Recovery, kind: Kind, own: usize, mourned: &[usize]) -> u8 {
    let bytes = Layout::new(kind, &r.roster, own - 1, set(mourned)).bytes();
    match r.offer(&bytes) {
        Ok(Taken) => 0,
        Ok(Repeated) => 32,
        Err(refusal) => refusal,
    }
}

// The bytes of all answers: in one list, and asked one by one.
fn list(r: &Recovery) -> Vec<u8> {
    let mut out = vec![9; r.roster.len()];
    assert_eq!(r.list(&mut out), Ok(()));
    out
}

fn asked(r: &Recovery) -> Vec<u8> {
    let byte = |place| match r.ask(place) {
        Ok(NotLast) => 0,
        Ok(Last) => 1,
        Ok(Open) => 2,
        Err(refusal) => panic!("refused by {refusal}"),
    };
    (0..r.roster.len()).map(byte).collect()
}

// A case of document 01: its name, the kind, how many, the records with their answers, then the answers for controllers and the whole.
type Case<'a> = (&'a str, Kind, u32, &'a [(usize, &'a [usize], u8)], &'a [(usize, Answer)], Option<bool>);

pub fn table() -> u64 {
    let table: &[Case] = &[
        ("P1", Full, 1, &[], &[(1, Last)], Some(true)),
        ("P1", Short, 1, &[], &[(1, Last)], Some(true)),
        ("P2", Full, 2, &[], &[(1, Open), (2, Open)], Some(false)),
        ("P2", Short, 2, &[], &[(1, Open), (2, Open)], Some(false)),
        ("P3", Short, 4, &[(1, &[], 0), (4, &[2, 3], 0)], &[(1, Open), (4, Last)], Some(false)),
        ("P4", Full, 4, &[(1, &[], 0), (4, &[2, 3], 0)], &[(1, Last), (4, Last)], Some(true)),
        ("P5", Full, 4, &[(1, &[], 0), (4, &[2, 3], 0), (2, &[1], 11)], &[(1, Last), (4, Last)], Some(true)),
        ("P6", Short, 4, &[(1, &[], 0), (4, &[2, 3], 0), (2, &[1], 0)], &[(1, NotLast), (4, Last)], Some(true)),
        ("P7", Full, 3, &[(1, &[], 0), (2, &[], 0)], &[(1, Open), (2, Open), (3, Last)], Some(false)),
        ("P7", Short, 3, &[(1, &[], 0), (2, &[], 0)], &[(1, Open), (2, Open), (3, Last)], Some(false)),
        ("P8", Full, 6, &[(1, &[4, 6], 0), (2, &[3, 5], 0)], &[(1, Last), (2, Last)], Some(true)),
        ("P9", Short, 6, &[(1, &[4, 6], 0), (2, &[3, 5], 0)], &[(1, Open), (2, Open)], Some(false)),
        ("P10", Short, 2, &[(1, &[2], 0), (2, &[1], 11)], &[], None),
        ("P11", Full, 3, &[(1, &[2], 0), (2, &[3], 11)], &[], None),
        ("P11", Full, 3, &[(1, &[2, 3], 0), (2, &[3], 0)], &[], None),
        ("P12", Full, 1, &[(1, &[1], 11)], &[(1, Last)], Some(true)),
        ("P12", Short, 3, &[(2, &[2], 11)], &[], None),
        ("a circle of three", Short, 3, &[(1, &[2], 0), (2, &[3], 0), (3, &[1], 11)], &[], None),
        ("all back, empty sets", Short, 3, &[(1, &[], 0), (2, &[], 0), (3, &[], 0)], &[(1, Last), (2, Last), (3, Last)], Some(true)),
        ("10 before 11", Short, 2, &[(1, &[2], 0), (1, &[2], 32), (1, &[], 10), (1, &[1], 10)], &[], None),
        ("all mourned", Full, 2, &[(1, &[1, 2], 11)], &[], None),
    ];
    for (name, kind, n, records, answers, settled) in table {
        let mut r = open(*n);
        for (own, mourned, wanted) in *records {
            assert_eq!(offer(&mut r, *kind, *own, mourned), *wanted, "{name}: {own} mourns {mourned:?}");
        }
        for &(controller, wanted) in *answers {
            assert_eq!(r.ask(controller - 1), Ok(wanted), "{name}: {controller}");
        }
        assert_eq!(list(&r), asked(&r), "{name}");
        assert!(settled.is_none_or(|settled| r.settled() == settled), "{name}");
    }
    table.len() as u64
}

// Records of both kinds in one group: how many, the records with their kinds and answers, then the answers for controllers and the whole.
type Mixed<'a> = (&'a str, u32, &'a [(Kind, usize, &'a [usize], u8)], &'a [(usize, Answer)], bool);

pub fn both_kinds() -> u64 {
    let table: &[Mixed] = &[
        ("another kind", 2, &[(Short, 1, &[2], 0), (Full, 1, &[2], 10), (Short, 1, &[2], 32)], &[(1, Last), (2, NotLast)], true),
        ("another kind", 2, &[(Full, 1, &[2], 0), (Short, 1, &[2], 10), (Full, 1, &[2], 32)], &[(1, Last), (2, NotLast)], true),
        ("full over short", 3, &[(Short, 2, &[3], 0), (Full, 1, &[2], 11), (Full, 1, &[2, 3], 0)], &[(1, Last), (3, NotLast)], true),
        ("short under full", 3, &[(Full, 1, &[2], 0), (Short, 2, &[3], 11), (Short, 2, &[], 0)], &[(1, Open), (2, NotLast)], false),
        ("short over full", 3, &[(Full, 2, &[3], 0), (Short, 1, &[2], 0)], &[(1, Last), (3, NotLast)], true),
        ("two short ones between", 4, &[(Short, 3, &[4], 0), (Short, 2, &[3], 0), (Full, 1, &[2, 3], 11)], &[(1, Open), (2, Open)], false),
        ("a full one names it already", 3, &[(Full, 1, &[2, 3], 0), (Short, 2, &[3], 0), (Full, 3, &[], 0)], &[(1, Last)], true),
        ("a circle", 3, &[(Full, 1, &[2], 0), (Short, 2, &[1], 11), (Short, 3, &[1], 0), (Full, 2, &[3], 11)], &[(1, NotLast)], true),
        ("absent and before a full one", 4, &[(Full, 1, &[2], 0), (Short, 3, &[4], 0)], &[(1, Open), (3, Last)], false),
        ("a full one before a short one", 3, &[(Short, 1, &[2], 0), (Full, 2, &[3], 0)], &[(1, Last), (2, NotLast)], true),
    ];
    for (name, n, records, answers, settled) in table {
        let mut r = open(*n);
        for &(kind, own, mourned, wanted) in *records {
            assert_eq!(offer(&mut r, kind, own, mourned), wanted, "{name}: {own}, {kind:?}, mourns {mourned:?}");
        }
        for &(controller, wanted) in *answers {
            assert_eq!(r.ask(controller - 1), Ok(wanted), "{name}: {controller}");
        }
        assert_eq!(list(&r), asked(&r), "{name}");
        assert_eq!(r.settled(), *settled, "{name}");
    }
    table.len() as u64
}

pub fn borders() -> u64 {
    let mut r = open(2);
    let (mut a, mut b) = ([9; 35], [8; 35]);
    for place in [2, 128, usize::MAX] {
        assert_eq!((r.ask(place), r.show(place, &mut a, &mut b), r.write(place, &mut a, 0)), (Err(12), Err(12), Err(12)));
    }
    assert_eq!((r.show(0, &mut a[..31], &mut b), r.show(0, &mut a, &mut b[..31])), (Err(13), Err(13)));
    assert_eq!((a, b), ([9; 35], [8; 35]));
    assert_eq!(r.show(0, &mut a, &mut b[..32]), Ok(Showing::Shown));
    assert_eq!(
        (&a[..32], &a[32..], &b[..16], b[16], &b[17..32], &b[32..]),
        (&[0; 32][..], &[9; 3][..], &[0; 16][..], 1, &[0; 15][..], &[8; 3][..])
    );
    assert_eq!((r.check(&a), r.check(&b), r.check(&a[..31])), (Ok(true), Ok(true), Err(13)));
    b[0] = 4;
    assert_eq!((r.check(&b), r.check(&b[..31])), (Err(15), Err(13)));
    b[0] = 2;
    assert_eq!(r.check(&b), Ok(false));
    assert_eq!(offer(&mut r, Short, 1, &[2]), 0);
    assert_eq!((r.show(0, &mut [], &mut []), r.show(1, &mut [], &mut [])), (Ok(Showing::Decided), Ok(Showing::Decided)));
    assert_eq!((r.write(1, &mut [], 0), r.write(0, &mut [0; 19], 1), r.write(0, &mut [0; 19], usize::MAX)), (Err(14), Err(13), Err(13)));
    assert_eq!(r.write(0, &mut [0; 19], 0), Ok(19));
    17
}

// 13 goes by the roster's length and changes nothing, and bytes past the roster stay.
pub fn listed() -> u64 {
    let mut r = open(4);
    let mut out = [9; 7];
    assert_eq!((r.list(&mut []), r.list(&mut out[..3]), out), (Err(13), Err(13), [9; 7]));
    assert_eq!((r.list(&mut out[..4]), out), (Ok(()), [2, 2, 2, 2, 9, 9, 9]));
    assert_eq!((offer(&mut r, Short, 1, &[]), offer(&mut r, Short, 4, &[2, 3])), (0, 0));
    assert_eq!((r.list(&mut out), out), (Ok(()), [2, 0, 0, 1, 9, 9, 9]));
    assert_eq!((offer(&mut r, Short, 2, &[1]), r.list(&mut out), out), (0, Ok(()), [0, 0, 0, 1, 9, 9, 9]));
    assert_eq!(list(&open(1)), [1]);
    let mut r = open(128);
    let mut out = [9; 129];
    assert_eq!((r.list(&mut out[..127]), out), (Err(13), [9; 129]));
    let others: Vec<usize> = (2..=128).collect();
    assert_eq!((offer(&mut r, Full, 1, &others), r.list(&mut out)), (0, Ok(())));
    assert_eq!((out[0], &out[1..128], out[128]), (1, &[0; 127][..], 9));
    9
}
