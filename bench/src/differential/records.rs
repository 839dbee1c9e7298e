// Calls that take bytes and lists alone: readers, the ticket desk's among them, rosters in bytes, and the writer from parts.
use super::{Run, list_length, words};
use crate::make::{self, Group};
use crate::plain::boards::Boards;
use crate::plain::record::{self, Record, Sight};
use crate::plain::{Kind, Refusal};
use crate::proved;
use crate::random::Random;

pub fn list(run: &mut Run) {
    let group = Group::any(&mut run.random);
    let percent = run.random.pick(&[0, 30, 100]);
    let seconds = make::seconds(&mut run.random, &group.roster, percent);
    for _ in 0..1 + list_length(&mut run.random) / 8 {
        // a few records in a row
        let parts: Vec<Vec<u8>> = (0..1 + run.random.below(3)).map(|_| make::offer(&mut run.random, &group, &seconds)).collect();
        let bytes = parts.concat();
        let (firsts, seconds) = lent_boards(run, &group.roster, &seconds);
        let boards = Boards { firsts: &firsts, seconds: &seconds };
        let mut start = 0;
        for part in &parts {
            read(run, boards, &bytes, start);
            roster(run, &group, &bytes, start + 6);
            read_desk(run, boards, &bytes[start..]);
            start += part.len();
        }
        let at = make::position(&mut run.random, bytes.len(), 0);
        read(run, boards, &bytes, at);
        roster(run, &group, &bytes, at);
        read_lone(run, boards, &parts[0]);
        read_desk(run, boards, &parts[0]);
        other_ends(run, boards, &parts[0]);
        cuts(run, boards, &parts[0]);
        write(run, &group);
    }
}

// The first and second serials that a reader is lent: mostly the group's, else each list changed for itself, or both moved back alike.
fn lent_boards(run: &mut Run, firsts: &[u32], seconds: &[u32]) -> (Vec<u32>, Vec<u32>) {
    let (mut firsts, mut seconds) = (firsts.to_vec(), seconds.to_vec());
    match run.random.below(10) {
        0..5 => {}
        5 => {
            firsts.clear();
            seconds.clear();
        }
        6 => {
            let more = run.random.pick(&[1, 64, 127, 128, 300]);
            firsts.splice(0..0, (0..more).map(|_| run.random.next() as u32));
            seconds.splice(0..0, (0..more).map(|_| run.random.below(2) as u32));
        }
        _ => {
            change(run, &mut firsts);
            change(run, &mut seconds);
        }
    }
    (firsts, seconds)
}

// A list becomes shorter or longer, is turned, or has a zero or a repeat in it, or stays as it is.
fn change(run: &mut Run, list: &mut Vec<u32>) {
    let n = list.len();
    match run.random.below(8) {
        0 => list.clear(),
        1 => list.truncate(run.random.below(n)),
        2 => list.resize_with(n + 1 + run.random.below(200), || run.random.next() as u32),
        3 => list.rotate_left(1),
        4 => list.extend_from_within(..),
        5 => {
            let (i, j) = (run.random.below(n), run.random.below(n));
            list[i] = run.random.pick(&[0, list[j]]);
        }
        _ => {}
    }
}

// What a reader was called with: a position, how many first serials there are, then first and second ones.
fn begin(run: &mut Run, name: &'static str, at: usize, boards: Boards, bytes: &[u8]) {
    let mut numbers = vec![at, boards.firsts.len()];
    numbers.extend(boards.firsts.iter().chain(boards.seconds).map(|&serial| serial as usize));
    run.begin(name, &numbers, bytes);
}

// Words lent to be written, and two more on both sides, which have to stay.
#[repr(C)]
#[derive(Clone, Copy, Debug, PartialEq)]
struct Words<const N: usize> {
    ahead: [u64; 2],
    out: [u64; N],
    behind: [u64; 2],
}

impl<const N: usize> Words<N> {
    fn any(random: &mut Random) -> Self {
        Words { ahead: words(random.bits()), out: [0; N].map(|_| random.next()), behind: words(random.bits()) }
    }
}

// What a reader gave: its answer, and its words of a record that was read, or those that were there.
fn outcome<const N: usize>(run: &mut Run, plain: Result<[u64; N], Refusal>, before: Words<N>, code: u8, after: Words<N>) {
    run.answer(plain.map_or_else(|refusal| refusal, |_| 0) as u64, code as u64);
    run.same("the words afterwards", &plain.map_or(before, |out| Words { out, ..before }), &after);
}

// Seven words of a record at a position.
fn record_words(at: usize, record: Record, count: usize) -> [u64; 7] {
    let [low, high] = words(record.mourned);
    [record.kind as u64, record.own as u64, at as u64 + 6, count as u64, low, high, (at + record.length) as u64]
}

fn read(run: &mut Run, boards: Boards, bytes: &[u8], at: usize) {
    let before = Words::any(&mut run.random);
    let mut after = before;
    begin(run, "read", at, boards, bytes);
    let mut roster = Vec::new();
    let plain = record::read(bytes.get(at..).unwrap_or(&[]), boards, &mut roster);
    let code = proved::read(bytes, at, boards.firsts, boards.seconds, &mut after.out);
    outcome(run, plain.map(|record| record_words(at, record, roster.len())), before, code, after);
}

fn read_lone(run: &mut Run, boards: Boards, bytes: &[u8]) {
    let before = Words::any(&mut run.random);
    begin(run, "read_lone", 0, boards, bytes);
    let mut roster = Vec::new();
    let plain = record::read_lone(bytes, boards, &mut roster);
    let (code, after) = engineer(boards, bytes, before);
    outcome(run, plain.map(|record| record_words(0, record, roster.len())), before, code, after);
}

// The library's reading of a lone record: its answer and the words afterwards.
fn engineer(boards: Boards, bytes: &[u8], mut words: Words<7>) -> (u8, Words<7>) {
    (proved::read_lone(bytes, boards.firsts, boards.seconds, &mut words.out), words)
}

// The same for the desk, and the roster's part of the bytes where it was not refused.
fn desk<'a>(boards: Boards, bytes: &'a [u8], mut words: Words<4>) -> (u8, Words<4>, Option<&'a [u8]>) {
    let code = proved::read_desk(bytes, boards.firsts, boards.seconds, &mut words.out);
    let part = if code == 0 { proved::desk_roster(bytes, &words.out) } else { None };
    (code, words, part)
}

// Four words of what the desk sees of a lone record.
fn desk_words(sight: Sight) -> [u64; 4] {
    [sight.kind as u64, sight.own as u64, 6, sight.roster.len() as u64 / 4]
}

fn read_desk(run: &mut Run, boards: Boards, bytes: &[u8]) {
    let before = Words::any(&mut run.random);
    begin(run, "read_desk", 0, boards, bytes);
    let plain = record::read_desk(bytes, boards, &mut Vec::new());
    let (code, after, part) = desk(boards, bytes, before);
    outcome(run, plain.map(desk_words), before, code, after);
    let wanted = plain.ok().map(|sight| sight.roster);
    run.same("the roster's serials", &wanted, &part);
    // of both they are the lent bytes themselves, and no copy
    for part in [wanted, part] {
        run.same("where they lie", &wanted.map(|_| bytes[6..].as_ptr()), &part.map(<[u8]>::as_ptr));
    }
}

// Where the roster of some bytes ends, or its count if that is no roster's; nothing where the bytes end before that.
fn roster_end(bytes: &[u8]) -> Option<usize> {
    let count = *bytes.get(5)? as usize;
    let end = if (1..=128).contains(&count) { 6 + 4 * count } else { 6 };
    (end <= bytes.len()).then_some(end)
}

// Changes what stands behind a position: a byte, all bytes, or how many they are.
fn change_behind(random: &mut Random, bytes: &mut Vec<u8>, end: usize) {
    let (length, more) = (bytes.len() - end, random.pick(&[1, 4, 30, 600]));
    match random.below(6) {
        0 => bytes.truncate(end),
        1 => bytes.truncate(end + random.below(length + 1)),
        2 => bytes.extend(random.bytes(more)),
        3 if length > 0 => bytes[end] = random.pick(&[0, 1, 127, 128, 129, 255]),
        4 if length > 0 => bytes[end + random.below(length)] ^= 1 << random.below(8),
        _ => bytes.splice(end.., random.bytes(more)).for_each(drop),
    }
}

// Bytes that are the same as far as the roster's end: the desk is told the same, whatever it is told.
fn other_ends(run: &mut Run, boards: Boards, bytes: &[u8]) {
    let Some(end) = roster_end(bytes) else { return };
    let before = Words::any(&mut run.random);
    let wanted = desk(boards, bytes, before);
    for _ in 0..3 {
        let mut others = bytes.to_vec();
        change_behind(&mut run.random, &mut others, end);
        begin(run, "read_desk, another end", end, boards, &others);
        let got = desk(boards, &others, before);
        run.same("what the desk is told, before and after a change behind the roster", &wanted, &got);
        run.answer(wanted.0 as u64, got.0 as u64);
    }
}

// A sound record, cut at every byte behind its roster: the desk is told the same, and the engineer is refused by 1.
fn cuts(run: &mut Run, boards: Boards, bytes: &[u8]) {
    let mut roster = Vec::new();
    if record::read_lone(bytes, boards, &mut roster).is_err() {
        return;
    }
    let (before, theirs) = (Words::any(&mut run.random), Words::any(&mut run.random));
    begin(run, "read_desk, cut", 0, boards, bytes);
    let wanted = desk(boards, bytes, before);
    run.answer(0, wanted.0 as u64);
    for length in 6 + 4 * roster.len()..bytes.len() {
        let cut = &bytes[..length];
        run.same("what the desk is told, of the whole and of so many bytes", &(length, wanted), &(length, desk(boards, cut, before)));
        run.same("what the engineer is told of so many bytes", &(length, (1, theirs)), &(length, engineer(boards, cut, theirs)));
    }
}

// Compares and copies a roster that may be elsewhere, shorter or longer.
fn roster(run: &mut Run, group: &Group, bytes: &[u8], at: usize) {
    let n = group.roster.len();
    let count = if run.random.chance(70) {
        n
    } else {
        run.random.pick(&[0, n - 1, n + 1, 127, 128, 129, 1 << 62, (1 << 62) + n, usize::MAX / 4 + 1, usize::MAX])
    };
    let at =
        if run.random.chance(90) { at } else { run.random.pick(&[0, bytes.len(), bytes.len() + 1, usize::MAX, usize::MAX - 4 * n + 1]) };
    let mut list = group.roster.clone();
    match run.random.below(12) {
        0 => list.truncate(n - 1),
        1 => list.push(7),
        2 => list[n - 1] ^= 1 << run.random.below(32),
        3 => list.rotate_left(1),
        _ => {}
    }
    run.begin("roster_is", &[at, count, list.len()], bytes);
    let there = record::serials_at(bytes, at, count);
    run.answer((there.as_ref() == Some(&list)) as u64, proved::roster_is(bytes, at, count, &list) as u64);

    let mut wanted = [0; 128].map(|_: u32| run.random.next() as u32);
    let mut copy = wanted;
    run.begin("copy_roster", &[at, count], bytes);
    let copied = there.filter(|there| there.len() <= 128);
    if let Some(there) = &copied {
        wanted[..count].copy_from_slice(there);
    }
    run.answer(copied.is_some() as u64, proved::copy_roster(bytes, at, count, &mut copy) as u64);
    run.same("the list afterwards", &wanted, &copy);
}

// A record from its parts, whatever list is handed over as its roster.
fn write(run: &mut Run, group: &Group) {
    let list = if run.random.chance(60) { group.roster.clone() } else { make::list(&mut run.random) };
    let kind = make::kind(&mut run.random);
    let own = make::place(&mut run.random, list.len());
    let mourned = run.random.bits() & if run.random.chance(50) { u128::MAX } else { run.random.bits() & run.random.bits() };
    let size = Kind::from_byte(1).and_then(|full| record::write(full, 0, &list, mourned, &mut [0; 1_031], 0)).unwrap_or(0);
    let length = make::length(&mut run.random, size) + run.random.pick(&[0, 0, 5, 30]);
    let at = make::position(&mut run.random, length, size);
    let (mut out, mut theirs) = run.buffers(length);
    run.begin("write_record", &[kind as usize, own, list.len(), length, at], &[]);
    let plain = Kind::from_byte(kind).and_then(|kind| record::write(kind, own, &list, mourned, out.part(), at));
    let library = proved::write_record(kind, own, &list, &words(mourned), theirs.part(), at);
    run.end(plain, library);
    run.same("the buffer afterwards", &out, &theirs);
}
