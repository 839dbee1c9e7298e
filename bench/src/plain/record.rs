// Stored records: the engineer's reader, the ticket desk's, and the writer.
use super::boards::Boards;
use super::set::{Set, below, members};
use super::{Kind, Refusal};
use std::io::Write;

// A record that was read; its roster goes to a list that the caller lends, so that reading allocates nothing.
#[derive(Clone, Copy, Debug, PartialEq, Eq)]
pub struct Record {
    pub kind: Kind,
    pub own: usize,
    pub mourned: Set,
    pub length: usize,
}

// What the ticket desk may see of a record: its own serial as stored, and the roster's serials, without their count, where they lie.
#[derive(Clone, Copy, Debug, PartialEq, Eq)]
pub struct Sight<'a> {
    pub kind: Kind,
    pub own: u32,
    pub roster: &'a [u8],
}

fn byte(rest: &mut &[u8]) -> Result<u8, Refusal> {
    let (&byte, after) = rest.split_first().ok_or(1)?;
    *rest = after;
    Ok(byte)
}

fn serial(rest: &mut &[u8]) -> Result<u32, Refusal> {
    let (&bytes, after) = rest.split_first_chunk().ok_or(1)?;
    *rest = after;
    match u32::from_be_bytes(bytes) {
        0 => Err(4),
        serial => Ok(serial),
    }
}

fn read_roster(rest: &mut &[u8], roster: &mut Vec<u32>) -> Result<(), Refusal> {
    let count = byte(rest)?;
    if !(1..=128).contains(&count) {
        return Err(3);
    }
    roster.clear();
    for _ in 0..count {
        let next = serial(rest)?;
        if roster.contains(&next) {
            return Err(5);
        }
        roster.push(next);
    }
    Ok(())
}

// The sections as far as the roster's end, for either reader: kind, own serial as stored, and the place that it stands for.
fn read_front(rest: &mut &[u8], boards: Boards, roster: &mut Vec<u32>) -> Result<(Kind, u32, usize), Refusal> {
    let kind = Kind::from_byte(byte(rest)?)?;
    let own = serial(rest)?;
    read_roster(rest, roster)?;
    let place = boards.find_on(roster, own).ok_or(6)?.0;
    Ok((kind, own, place))
}

fn read_mourned(rest: &mut &[u8], boards: Boards, roster: &[u32]) -> Result<Set, Refusal> {
    let count = byte(rest)? as usize;
    if count > roster.len() {
        return Err(3);
    }
    let (mut mourned, mut from) = (0, 0);
    for _ in 0..count {
        let next = serial(rest)?;
        // in a sound record each stands ahead of the one before it
        let place = match roster[from..].iter().position(|&x| x == next) {
            Some(ahead) => from + ahead,
            None => boards.find_on(roster, next).ok_or(6)?.0,
        };
        if place < from {
            return Err(7);
        }
        mourned |= 1 << place;
        from = place + 1;
    }
    Ok(mourned)
}

// The record at the front of some bytes, whose own and mourned serials may be second ones.
pub fn read(bytes: &[u8], boards: Boards, roster: &mut Vec<u32>) -> Result<Record, Refusal> {
    let mut rest = bytes;
    let (kind, _, own) = read_front(&mut rest, boards, roster)?;
    let mourned = read_mourned(&mut rest, boards, roster)?;
    Ok(Record { kind, own, mourned, length: bytes.len() - rest.len() })
}

// Bytes that are one record and no more.
pub fn read_lone(bytes: &[u8], boards: Boards, roster: &mut Vec<u32>) -> Result<Record, Refusal> {
    let record = read(bytes, boards, roster)?;
    if record.length < bytes.len() { Err(8) } else { Ok(record) }
}

// The desk's reading of a lone record: what follows the roster is not looked at, and may be anything.
pub fn read_desk<'a>(bytes: &'a [u8], boards: Boards, roster: &mut Vec<u32>) -> Result<Sight<'a>, Refusal> {
    let mut rest = bytes;
    let (kind, own, _) = read_front(&mut rest, boards, roster)?;
    let end = bytes.len() - rest.len();
    Ok(Sight { kind, own, roster: &bytes[end - 4 * roster.len()..end] })
}

// Lays a record into a buffer from a position on, and gives where it ends.
pub fn write(kind: Kind, own: usize, roster: &[u32], mourned: Set, out: &mut [u8], at: usize) -> Result<usize, Refusal> {
    let serial = roster.get(own).ok_or(12)?;
    if roster.len() > 128 {
        return Err(3);
    }
    let mourned = mourned & below(roster.len());
    let count = mourned.count_ones() as usize;
    let end = at.checked_add(7 + 4 * (roster.len() + count)).filter(|&end| end <= out.len()).ok_or(13)?;
    let mut rest = &mut out[at..end];
    let mut put = |bytes: &[u8]| rest.write_all(bytes).expect("the part is as long as the record");
    put(&[kind as u8]);
    put(&serial.to_be_bytes());
    put(&[roster.len() as u8]);
    roster.iter().for_each(|x| put(&x.to_be_bytes()));
    put(&[count as u8]);
    members(mourned).for_each(|p| put(&roster[p].to_be_bytes()));
    Ok(end)
}

// The serials that start at a position, if so many are there.
pub fn serials_at(bytes: &[u8], at: usize, count: usize) -> Option<Vec<u32>> {
    let end = at.checked_add(count.checked_mul(4)?)?;
    let part = bytes.get(at..end)?;
    Some(part.chunks_exact(4).map(|x| u32::from_be_bytes(x.try_into().expect("4 bytes"))).collect())
}
