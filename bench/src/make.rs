// Data for tests and benchmarks: rosters, histories, records sound and damaged, awkward places and lengths.
use crate::plain::Kind;
use crate::plain::set::{Set, below, has, members};
use crate::random::Random;

// The rosters of the benchmarks.
pub const SIZES: [usize; 4] = [4, 16, 64, 128];

// The groups of the benchmarks, by the places whose records are full: all, none, or every other one.
pub const MIXES: [(&str, Set); 3] = [("full", Set::MAX), ("short", 0), ("both kinds", Set::MAX / 3)];

pub fn ordered(order: &str, n: usize) -> Vec<u32> {
    let mut random = Random::new(n as u64);
    // where the library's filter keeps the mark of a serial
    let slot = |x: u32| (x as u64 * 2_654_435_761) >> 21 & 2_047;
    let mut list: Vec<u32> = match order {
        "one hash for all" => (1..).filter(|&x| slot(x) == 5).take(n).collect(),
        _ => (0..n).map(|_| random.next() as u32 | 1).collect(),
    };
    list.sort_unstable();
    list.dedup();
    assert_eq!(list.len(), n);
    if order == "random order" {
        random.shuffle(&mut list);
    }
    list
}

// A group, the places whose records are full, and a history of it that its records come from.
pub struct Group {
    pub full: Set,
    pub roster: Vec<u32>,
    pub truth: Vec<Set>,
}

impl Group {
    pub fn any(random: &mut Random) -> Self {
        let full = match random.below(6) {
            0 => 0,
            1 => Set::MAX,
            2 => random.bits() & random.bits() & random.bits(),
            3 => random.bits() | random.bits() | random.bits(),
            _ => random.bits(),
        };
        let roster = roster(random);
        let percent = random.pick(&[0, 3, 20, 50, 90, 100]);
        let truth = history_of(random, full, roster.len(), percent);
        Group { full, roster, truth }
    }

    // The kind of a place's true record.
    pub fn kind(&self, place: usize) -> Kind {
        if has(self.full, place) { Kind::Full } else { Kind::Short }
    }

    // The true record of a place.
    pub fn record(&self, place: usize) -> Layout {
        Layout::new(self.kind(place), &self.roster, place, self.truth[place])
    }
}

// Small rosters often, and the borders of the two words.
pub fn count(random: &mut Random) -> usize {
    match random.below(100) {
        0..60 => 1 + random.below(6),
        60..80 => 7 + random.below(14),
        80..90 => random.pick(&[63, 64, 65, 127, 128, 128]),
        _ => 1 + random.below(128),
    }
}

// Different serials other than 0: at random, sharing their low bits, in a row, or sharing their high bits.
pub fn roster(random: &mut Random) -> Vec<u32> {
    let n = count(random);
    let style = random.below(4);
    let from = random.next() as u32;
    let mut list: Vec<u32> = Vec::with_capacity(n);
    let mut k = 0;
    while list.len() < n {
        k += 1;
        let serial = match style {
            0 => random.next() as u32,
            1 => k << 16,
            2 => from.wrapping_add(k),
            _ => from & 0xffff_ff00 | random.below(256) as u32,
        };
        if serial != 0 && !list.contains(&serial) {
            list.push(serial);
        }
    }
    random.shuffle(&mut list);
    list
}

// A serial for a new board: often one that shares bits with a known serial, now and then a known one or 0.
pub fn board(random: &mut Random, firsts: &[u32], seconds: &[u32]) -> u32 {
    let (first, any) = (random.pick(firsts), random.next() as u32);
    match random.below(20) {
        0 => 0,
        1 => first,
        2 if !seconds.is_empty() => random.pick(seconds),
        3..8 => first ^ 1 << random.below(32),
        8..12 => any & 0xffff_0000 | first & 0xffff,
        _ => any,
    }
}

// Second serials for so many places in a hundred. No recovery has looked at them: repeats and first serials may be among them.
pub fn seconds(random: &mut Random, firsts: &[u32], percent: usize) -> Vec<u32> {
    let mut seconds = Vec::with_capacity(firsts.len());
    for _ in firsts {
        let serial = if random.chance(percent) { board(random, firsts, &seconds) } else { 0 };
        seconds.push(serial);
    }
    seconds
}

// A history: the places stop in some order, and each has heard some of those before it. The row of a full place has all that are before it.
pub fn history_of(random: &mut Random, full: Set, n: usize, percent: usize) -> Vec<Set> {
    let mut order: Vec<usize> = (0..n).collect();
    random.shuffle(&mut order);
    let (mut rows, mut before) = (vec![0; n], vec![0; n]);
    for i in 1..n {
        let place = order[i];
        for &q in &order[..i] {
            if random.chance(percent) {
                rows[place] |= 1 << q;
                before[place] |= 1 << q | before[q];
            }
        }
        if has(full, place) {
            rows[place] = before[place];
        }
    }
    rows
}

pub fn history_bytes(rows: &[Set]) -> Vec<u8> {
    rows.iter().flat_map(|row| row.to_le_bytes()).collect()
}

// A record by its fields, each of which may be wrong.
#[derive(Clone)]
pub struct Layout {
    pub kind: u8,
    pub own: u32,
    pub count: u8,
    pub roster: Vec<u32>,
    pub named: u8,
    pub mourned: Vec<u32>,
}

impl Layout {
    pub fn new(kind: Kind, roster: &[u32], own: usize, mourned: Set) -> Self {
        Layout::by(kind, roster, own, mourned, |p| roster[p])
    }

    // The own and the mourned places stand by the serials that the caller chooses.
    pub fn by(kind: Kind, roster: &[u32], own: usize, mourned: Set, mut serial: impl FnMut(usize) -> u32) -> Self {
        let own = serial(own);
        let mourned: Vec<u32> = members(mourned & below(roster.len())).map(serial).collect();
        Layout { kind: kind as u8, own, count: roster.len() as u8, roster: roster.to_vec(), named: mourned.len() as u8, mourned }
    }

    pub fn bytes(&self) -> Vec<u8> {
        let mut bytes = vec![self.kind];
        bytes.extend(self.own.to_be_bytes());
        bytes.push(self.count);
        bytes.extend(self.roster.iter().flat_map(|x| x.to_be_bytes()));
        bytes.push(self.named);
        bytes.extend(self.mourned.iter().flat_map(|x| x.to_be_bytes()));
        bytes
    }

    // One field is made wrong, or at least different.
    fn damage(&mut self, random: &mut Random, second: u32) {
        let n = self.roster.len();
        let (i, j) = (random.below(n), random.below(n));
        let any = random.next() as u32;
        let strange = random.pick(&[0, 1, self.own, self.roster[i], self.roster[i] ^ 1 << 16, second, any]);
        match random.below(12) {
            0 => self.kind = random.pick(&[0, 1, 2, 3, 255]),
            1 => self.own = strange,
            2 => self.count = random.pick(&[0, 1, 127, 128, 129, 255, self.count.wrapping_sub(1), self.count.wrapping_add(1)]),
            3 => self.roster[j] = strange,
            4 => self.roster.swap(i, j),
            5 => {
                self.roster.truncate(j + 1);
                self.count = j as u8 + 1;
            }
            6 => {
                self.named =
                    random.pick(&[0, self.count, self.count.wrapping_add(1), self.named.wrapping_sub(1), self.named.wrapping_add(1), 255])
            }
            7 => {
                self.mourned.push(strange);
                self.named = self.named.wrapping_add(1);
            }
            8 if !self.mourned.is_empty() => {
                let k = random.below(self.mourned.len());
                self.mourned[k] = strange;
            }
            9 if !self.mourned.is_empty() => {
                let (k, l) = (random.below(self.mourned.len()), random.below(self.mourned.len()));
                self.mourned.swap(k, l);
            }
            10 if !self.mourned.is_empty() => {
                let (k, l) = (random.below(self.mourned.len()), random.below(self.mourned.len()));
                self.mourned[k] = self.mourned[l];
            }
            _ => {
                self.mourned = self.roster.clone();
                self.named = n as u8;
            }
        }
    }
}

// Bytes that are changed in one place, cut, or followed by others.
fn damage_bytes(random: &mut Random, bytes: &mut Vec<u8>) {
    let (at, any) = (random.below(bytes.len()), random.next() as u8);
    match random.below(5) {
        0 => bytes[at] ^= 1 << random.below(8),
        1 => bytes[at] = random.pick(&[0, 1, 2, 128, 129, 255, any]),
        2 => bytes.truncate(at),
        3 => bytes.extend_from_slice(&random.next().to_le_bytes()[..1 + at % 8]),
        _ => {
            bytes.remove(at);
        }
    }
}

// A mourned set for the record of a place: the true one mostly.
fn mourned(random: &mut Random, group: &Group, place: usize) -> Set {
    let n = group.roster.len();
    let truth = group.truth[place];
    match random.below(100) {
        0..74 => truth,
        74..82 => truth ^ 1 << random.below(n),
        82..90 => random.bits() & random.bits() & random.bits() & below(n),
        90..94 => truth | 1 << place,
        94..97 => 1 << random.below(n),
        97..99 => 0,
        _ => below(n),
    }
}

// A second serial of the group, or 0.
fn some_second(random: &mut Random, seconds: &[u32]) -> u32 {
    if seconds.is_empty() { 0 } else { random.pick(seconds) }
}

// A record of the group, true or not, its own and mourned serials partly second ones. Now and then a second serial stands in its roster.
fn layout(random: &mut Random, group: &Group, seconds: &[u32]) -> Layout {
    let n = group.roster.len();
    let place = random.below(n);
    let mourned = mourned(random, group, place);
    let mut roster = group.roster.clone();
    let second = some_second(random, seconds);
    if second != 0 && random.chance(6) {
        roster[random.below(n)] = second;
    }
    let kind = if random.chance(85) { group.kind(place) } else { random.pick(&[Kind::Full, Kind::Short]) };
    let percent = random.pick(&[0, 50, 100]);
    Layout::by(kind, &roster, place, mourned, |p| match seconds.get(p) {
        Some(&second) if second != 0 && random.chance(percent) => second,
        _ => roster[p],
    })
}

// Some bytes to offer to a group with these second serials: mostly a record of it, now and then one with a fault, or noise.
pub fn offer(random: &mut Random, group: &Group, seconds: &[u32]) -> Vec<u8> {
    let mut layout = layout(random, group, seconds);
    let kind = random.below(100);
    if (70..86).contains(&kind) {
        let second = some_second(random, seconds);
        layout.damage(random, second);
    }
    let mut bytes = layout.bytes();
    if (82..97).contains(&kind) {
        damage_bytes(random, &mut bytes);
    }
    if kind >= 97 {
        let length = random.below(40);
        bytes = random.bytes(length);
        bytes.iter_mut().for_each(|byte| *byte %= 5);
    }
    bytes
}

// Lists to open with: rosters, and lists of a wrong length, with zeros or repeats.
pub fn list(random: &mut Random) -> Vec<u32> {
    let mut list = roster(random);
    if random.chance(30) {
        let length = random.pick(&[0, 1, 127, 128, 129, 130, 200]);
        list.resize_with(length, || random.next() as u32);
    }
    for _ in 0..random.below(3) {
        if !list.is_empty() && random.chance(40) {
            let (i, j) = (random.below(list.len()), random.below(list.len()));
            list[i] = random.pick(&[0, list[j], list[j]]);
        }
    }
    list
}

// A kind byte: mostly a known one.
pub fn kind(random: &mut Random) -> u8 {
    if random.chance(85) { 1 + random.below(2) as u8 } else { random.pick(&[0, 1, 2, 3, 4, 255]) }
}

// A place: mostly on a roster of n, else just off it or far off.
pub fn place(random: &mut Random, n: usize) -> usize {
    if n > 0 && random.chance(90) {
        return random.below(n);
    }
    random.pick(&[n, n + 1, 63, 64, 127, 128, 129, 255, 256, 1 << 32, 1 << 59, 1 << 60, usize::MAX / 2 + 1, usize::MAX - 1, usize::MAX])
}

// A length near a wanted one.
pub fn length(random: &mut Random, wanted: usize) -> usize {
    match random.below(8) {
        0 => 0,
        1 => wanted.saturating_sub(1),
        2 => wanted + 1,
        3 => wanted + 3,
        4 => random.below(wanted + 20),
        _ => wanted,
    }
}

// A position for something of a size in a buffer: mostly one where it fits.
pub fn position(random: &mut Random, length: usize, size: usize) -> usize {
    let room = length.saturating_sub(size);
    match random.below(10) {
        0 => room + 1,
        1 => length,
        2 => length + 1,
        3 => random.pick(&[usize::MAX, usize::MAX - 1, usize::MAX - size, usize::MAX - 3, 1 << 63, 1 << 32]),
        4 => 0,
        _ => random.below(room + 1),
    }
}
