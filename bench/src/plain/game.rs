// The game of document 02, [6]: a crew fetches an absent place, the hill hands over a record of it that is not refused, and so on until the
// whole is settled.
use super::record;
use super::recovery::Recovery;
use super::set::{Set, below, members};
use super::{Kind, Refusal};

// How many fetches it lasts where both play as well as can be, for a roster of up to four.
pub fn play(r: &Recovery) -> Result<usize, Refusal> {
    if r.roster.len() > 4 { Err(17) } else { Ok(crew(r)) }
}

// The crew's turn: it fetches a place after which the rest is shortest.
fn crew(r: &Recovery) -> usize {
    if r.settled() {
        return 0;
    }
    let absent = below(r.roster.len()) & !r.returned;
    1 + members(absent).map(|place| hill(r, place)).min().expect("with nobody absent the whole is settled")
}

// The hill's turn: it hands over a record of the place, of either kind, after which the rest is longest.
fn hill(r: &Recovery, place: usize) -> usize {
    let records = (0..1 << r.roster.len()).flat_map(|mourned| [(Kind::Full, mourned), (Kind::Short, mourned)]);
    records.filter_map(|(kind, mourned)| with(r, kind, place, mourned)).map(|after| crew(&after)).max().unwrap_or(0)
}

// The recovery after a record, if it is not refused.
pub fn with(r: &Recovery, kind: Kind, place: usize, mourned: Set) -> Option<Recovery> {
    let mut bytes = [0; 39];
    let end = record::write(kind, place, &r.roster, mourned, &mut bytes, 0).expect("a place of four at most");
    let mut after = r.clone();
    after.offer(&bytes[..end]).ok()?;
    Some(after)
}
