// Faults of records and of lists of serials, and records written and read again.
use super::hex;
use crate::make::Group;
use crate::plain::boards::{Boards, Which};
use crate::plain::day::Day;
use crate::plain::record;
use crate::plain::recovery::{Offer, Recovery};
use crate::random::Random;

pub fn faults() -> u64 {
    let roster = "00000007 00000008";
    let many = |count: usize| (1..=count).map(|x| format!("{x:08x}")).collect::<String>();
    let table = [
        ("".into(), 1),
        ("07".into(), 2),
        ("00".into(), 2),
        ("01".into(), 1),
        ("01 000000".into(), 1),
        ("01 00000000".into(), 4),
        ("01 00000000 00".into(), 4),
        ("01 00000007".into(), 1),
        ("01 00000007 c8".into(), 3),
        ("01 00000007 00".into(), 3),
        ("01 00000007 81".into(), 3),
        ("01 00000007 02 00000000".into(), 4),
        ("01 00000007 03 00000007 00000007 00000000".into(), 5),
        ("01 00000007 02 00000007 000000".into(), 1),
        ("01 00000009 02 00000007 00000007".into(), 5),
        (format!("01 00000009 02 {roster}"), 6),
        (format!("01 00000009 02 {roster} 03"), 6),
        (format!("01 00000007 02 {roster}"), 1),
        (format!("01 00000007 02 {roster} 03"), 3),
        (format!("01 00000007 02 {roster} 02 00000009"), 6),
        (format!("01 00000007 02 {roster} 02 00000000"), 4),
        (format!("01 00000007 02 {roster} 02 00000008 00000007"), 7),
        (format!("01 00000007 02 {roster} 02 00000008 00000008"), 7),
        (format!("01 00000007 02 {roster} 02 00000008 00000007 00"), 7),
        (format!("01 00000007 02 {roster} 02 00000007"), 1),
        (format!("01 00000007 02 {roster} 02 {roster} 00"), 8),
        (format!("01 00000007 02 {roster} 02 {roster}"), 0),
        ("02 ffffffff 01 ffffffff 00".into(), 0),
        (format!("01 00000001 80 {} 80 {}", many(128), many(128)), 0),
        (format!("01 00000001 81 {} 00", many(129)), 3),
        (format!("01 00000001 80 {} 81 {}", many(128), many(128)), 3),
    ];
    for (text, wanted) in &table {
        let got = record::read_lone(&hex(text), Boards::OLD, &mut Vec::new());
        assert_eq!(got.map_or_else(|refusal| refusal, |_| 0), *wanted, "{text}");
    }
    let longest = hex(&table[28].0);
    assert_eq!(longest.len(), 1_031);
    table.len() as u64
}

pub fn lists() -> u64 {
    let long: Vec<u32> = (1..=129).collect();
    let table: &[(u8, &[u32], u8)] = &[
        (1, &[7], 0),
        (2, &[7], 0),
        (0, &[7], 2),
        (3, &[], 2),
        (255, &[0], 2),
        (1, &[], 3),
        (1, &long, 3),
        (1, &long[..128], 0),
        (1, &[0], 4),
        (2, &[7, 7, 0], 4),
        (2, &[7, 8, 7], 5),
        (2, &[65_536, 131_072], 0),
    ];
    for (kind, list, wanted) in table {
        let recovery = Recovery::open(list).map_or_else(|refusal| refusal, |_| 0);
        assert!(*wanted == 2 || recovery == *wanted, "{list:?}");
        assert_eq!(Day::open(*kind, list).map_or_else(|refusal| refusal, |_| 0), *wanted, "{kind} {list:?}");
    }
    let low_bits: Vec<u32> = (1..=128).map(|k| k * 65_536).collect();
    let r = Recovery::open(&low_bits).unwrap();
    for k in 0..128u32 {
        assert_eq!(r.find((k + 1) * 65_536), Some((k as usize, Which::First)));
        assert_eq!(r.find(k * 65_536 + 1), None);
    }
    table.len() as u64 + 128
}

pub fn round_trips() -> u64 {
    let mut random = Random::new(5);
    for _ in 0..2_000 {
        let group = Group::any(&mut random);
        let place = random.below(group.roster.len());
        let bytes = group.record(place).bytes();
        let mut r = Recovery::open(&group.roster).unwrap();
        assert_eq!(r.offer(&bytes), Ok(Offer::Taken));
        let mut out = vec![77; bytes.len() + 9];
        assert_eq!(r.write(place, &mut out, 4), Ok(4 + bytes.len()));
        assert_eq!(out, [vec![77; 4], bytes, vec![77; 5]].concat());
    }
    2_000
}
