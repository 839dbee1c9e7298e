// What the ticket desk may see, document 02, [5].
use super::boards::bytes;
use super::hex;
use crate::make::{self, Group, Layout};
use crate::plain::Kind::{Full, Short};
use crate::plain::Refusal;
use crate::plain::boards::Boards;
use crate::plain::record::{self, Record, Sight};
use crate::random::Random;

fn desk<'a>(bytes: &'a [u8], boards: Boards) -> Result<Sight<'a>, Refusal> {
    record::read_desk(bytes, boards, &mut Vec::new())
}

fn engineer(bytes: &[u8], boards: Boards) -> Result<Record, Refusal> {
    record::read_lone(bytes, boards, &mut Vec::new())
}

// Bytes, and what desk and engineer answer: the same as far as the roster's end, and behind it the desk refuses nothing.
pub fn faults() -> u64 {
    let roster = "00000007 00000008";
    let many = |count: usize| (1..=count).map(|x| format!("{x:08x}")).collect::<String>();
    let table = [
        ("".into(), 1, 1),
        ("00".into(), 2, 2),
        ("03".into(), 2, 2),
        ("01".into(), 1, 1),
        ("02 000000".into(), 1, 1),
        ("01 00000000".into(), 4, 4),
        ("01 00000007".into(), 1, 1),
        ("01 00000007 00".into(), 3, 3),
        ("01 00000007 81".into(), 3, 3),
        ("01 00000007 02".into(), 1, 1),
        ("01 00000007 02 00000000".into(), 4, 4),
        ("01 00000007 02 00000007 000000".into(), 1, 1),
        ("01 00000007 02 00000007 00000000".into(), 4, 4),
        ("01 00000007 03 00000007 00000007 00000000".into(), 5, 5),
        ("01 00000009 02 00000007 00000007".into(), 5, 5),
        (format!("01 00000009 02 {roster}"), 6, 6),
        (format!("01 00000009 02 {roster} 03"), 6, 6),
        // behind the roster
        (format!("01 00000007 02 {roster}"), 0, 1),
        (format!("01 00000007 02 {roster} 03"), 0, 3),
        (format!("01 00000007 02 {roster} ff"), 0, 3),
        (format!("01 00000007 02 {roster} 01"), 0, 1),
        (format!("01 00000007 02 {roster} 01 0000"), 0, 1),
        (format!("01 00000007 02 {roster} 01 00000000"), 0, 4),
        (format!("01 00000007 02 {roster} 01 00000009"), 0, 6),
        (format!("01 00000007 02 {roster} 02 00000008 00000007"), 0, 7),
        (format!("01 00000007 02 {roster} 02 00000008 00000008"), 0, 7),
        (format!("01 00000007 02 {roster} 00 00"), 0, 8),
        (format!("01 00000007 02 {roster} 02 {roster} 00"), 0, 8),
        (format!("01 00000007 02 {roster} 02 {roster}"), 0, 0),
        ("02 ffffffff 01 ffffffff 00".into(), 0, 0),
        (format!("01 00000001 80 {}", many(128)), 0, 1),
        (format!("01 00000080 80 {} 80 {}", many(128), many(128)), 0, 0),
        (format!("01 00000001 80 {} 81", many(128)), 0, 3),
        (format!("01 00000081 80 {} 00", many(128)), 6, 6),
        (format!("01 00000001 81 {} 00", many(129)), 3, 3),
    ];
    for (text, for_desk, for_engineer) in &table {
        let record = hex(text);
        let [seen, read] = [desk(&record, Boards::OLD).map(drop), engineer(&record, Boards::OLD).map(drop)];
        assert_eq!([seen, read].map(|answer| answer.err().unwrap_or(0)), [*for_desk, *for_engineer], "{text}");
    }
    2 * table.len() as u64
}

// First and second serials of a group, a record's own serial and roster, and the desk's refusal or 0.
type Case<'a> = (&'a [u32], &'a [u32], u32, &'a [u32], Refusal);

const CASES: &[Case] = &[
    (&[], &[], 1, &[1, 2], 0),
    (&[], &[], 8, &[1, 2], 6),
    (&[1, 2], &[8, 9], 1, &[1, 2], 0),
    (&[1, 2], &[8, 9], 8, &[1, 2], 0),
    (&[1, 2], &[8, 9], 9, &[1, 2], 0),
    (&[1, 2], &[8, 9], 9, &[2, 1], 0),
    (&[1, 2], &[8, 9], 0, &[1, 2], 4),
    (&[1, 2], &[8, 9], 7, &[1, 2], 6),
    // a serial of the record's own roster is itself
    (&[1, 2], &[8, 9], 8, &[3, 8], 0),
    (&[1, 2], &[8, 9], 8, &[8, 1], 0),
    // second to one that does not stand there
    (&[1, 2], &[8, 9], 9, &[1, 3], 6),
    (&[1, 2], &[8, 9], 9, &[1, 8], 6),
    // the roster is never read by second serials
    (&[1, 2], &[8, 9], 8, &[1, 8, 8], 5),
    (&[1, 2], &[8, 9], 8, &[1, 0], 4),
    // lists that no recovery has
    (&[1], &[8, 9], 9, &[1, 2], 6),
    (&[1, 2], &[8], 8, &[1, 2], 0),
    (&[1, 2], &[8, 8], 8, &[1, 2], 0),
    (&[3, 1], &[8, 8], 8, &[1, 2], 6),
    (&[1, 8], &[8, 9], 9, &[1, 2], 6),
    (&[0, 2], &[8, 9], 8, &[1, 2], 6),
];

// The own serial is seen as stored, and the roster as the bytes from 6 on, in both kinds and whether anyone is mourned or not.
pub fn second_serials() -> u64 {
    for case in CASES {
        let &(firsts, seconds, own, roster, refusal) = case;
        for (kind, mourned) in [(Full, &[][..]), (Short, &[9, 0])] {
            let record = bytes(kind, own, roster, mourned);
            let part = &record[6..6 + 4 * roster.len()];
            let got = desk(&record, Boards { firsts, seconds });
            assert_eq!(got, if refusal == 0 { Ok(Sight { kind, own, roster: part }) } else { Err(refusal) }, "{case:?}");
            assert!(got.is_err() || got.unwrap().roster.as_ptr() == part.as_ptr(), "{case:?}");
        }
    }
    4 * CASES.len() as u64
}

// Sound records in either serials, cut at every byte behind the roster, and with other bytes there: the desk sees the same.
pub fn hidden() -> u64 {
    let mut random = Random::new(9);
    let mut checks = 0;
    for _ in 0..500 {
        let group = Group::any(&mut random);
        let (n, place) = (group.roster.len(), random.below(group.roster.len()));
        let seconds: Vec<u32> = group.roster.iter().map(|first| first ^ 1 << 31).collect();
        let either = |p: usize| if random.chance(50) { seconds[p] } else { group.roster[p] };
        let record = Layout::by(group.kind(place), &group.roster, place, group.truth[place], either).bytes();
        let boards = Boards { firsts: &group.roster, seconds: &seconds };
        let (seen, end) = (desk(&record, boards), 6 + 4 * n);
        assert!(seen.is_ok() && engineer(&record, boards).is_ok());
        for length in end..record.len() {
            assert_eq!((desk(&record[..length], boards), engineer(&record[..length], boards)), (seen, Err(1)));
        }
        for _ in 0..20 {
            let length = make::length(&mut random, record.len() - end);
            assert_eq!(desk(&[&record[..end], &random.bytes(length)].concat(), boards), seen);
        }
        checks += 2 + 2 * (record.len() - end) as u64 + 20;
    }
    checks
}
