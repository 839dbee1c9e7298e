// What to fetch, document 02, [6]: the number told, the place told, and the game played out.
use super::cases::offer;
use super::open;
use crate::plain::Kind::{self, Full, Short};
use crate::plain::game;
use crate::plain::recovery::Recovery;

// A case: how many members, the records that are taken, the number and the controller told, and how long the game is.
type Case<'a> = (&'a str, u32, &'a [(Kind, usize, &'a [usize])], Option<(usize, usize)>, Result<usize, u8>);

pub fn table() -> u64 {
    let table: &[Case] = &[
        ("one member", 1, &[], None, Ok(0)),
        ("nobody back", 2, &[], Some((2, 1)), Ok(2)),
        ("nobody back", 3, &[], Some((3, 1)), Ok(3)),
        ("nobody back", 4, &[], Some((4, 1)), Ok(4)),
        ("nobody back", 128, &[], Some((128, 1)), Err(17)),
        ("all back", 3, &[(Short, 1, &[]), (Full, 2, &[]), (Short, 3, &[])], None, Ok(0)),
        ("P3", 4, &[(Short, 1, &[]), (Short, 4, &[2, 3])], Some((2, 2)), Ok(2)),
        ("P4", 4, &[(Full, 1, &[]), (Full, 4, &[2, 3])], None, Ok(0)),
        ("P6", 4, &[(Short, 1, &[]), (Short, 4, &[2, 3]), (Short, 2, &[1])], None, Ok(0)),
        ("P7", 3, &[(Full, 1, &[]), (Full, 2, &[])], Some((1, 3)), Ok(1)),
        ("P8", 6, &[(Full, 1, &[4, 6]), (Full, 2, &[3, 5])], None, Err(17)),
        ("P9", 6, &[(Short, 1, &[4, 6]), (Short, 2, &[3, 5])], Some((4, 3)), Err(17)),
        ("only a mourned one is blocked", 3, &[(Short, 1, &[2, 3]), (Short, 2, &[])], None, Ok(0)),
        ("the lowest absent one blocks none", 3, &[(Full, 2, &[1])], Some((1, 3)), Ok(1)),
        ("one of five absent", 5, &[(Short, 1, &[]), (Short, 2, &[]), (Short, 3, &[]), (Short, 4, &[])], Some((1, 5)), Err(17)),
    ];
    for (name, n, records, told, game) in table {
        let mut r = open(*n);
        for (kind, own, mourned) in *records {
            assert_eq!(offer(&mut r, *kind, *own, mourned), 0, "{name}: {own} mourns {mourned:?}");
        }
        let controller = |(number, place)| (number, place + 1);
        assert_eq!((r.to_fetch().map(controller), game::play(&r)), (*told, *game), "{name}");
    }
    table.len() as u64
}

fn number(r: &Recovery) -> usize {
    r.to_fetch().map_or(0, |told| told.0)
}

// On a roster of up to four: the number told is as long as the game, with 0 the whole is settled, and whichever record of the place told is
// taken, the number is less after it.
pub fn guided(r: &Recovery) -> u64 {
    assert_eq!((game::play(r), r.settled()), (Ok(number(r)), r.to_fetch().is_none()), "{r:?}");
    let Some((number_now, place)) = r.to_fetch() else { return 2 };
    let records = (0..1 << r.roster.len()).flat_map(|mourned| [(Full, mourned), (Short, mourned)]);
    let after: Vec<Recovery> = records.filter_map(|(kind, mourned)| game::with(r, kind, place, mourned)).collect();
    for after in &after {
        assert!(number(after) < number_now, "{r:?} then {after:?}");
    }
    2 + after.len() as u64
}
