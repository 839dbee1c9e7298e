// The proved library: its functions as include/goatmonth.h declares them, and methods that lend slices.
use std::fmt::{Debug, Formatter, Result};

pub type Head = [u64; 9];
pub type DayHead = [u64; 4];
pub type Serials = [u32; 128];
pub type Rows = [u8; 2048];

// gm_recovery of the header.
#[repr(C)]
#[derive(Clone, PartialEq, Eq)]
pub struct Recovery {
    pub head: Head,
    pub serials: Serials,
    pub seconds: Serials,
    pub rows: Rows,
}

// gm_day of the header.
#[repr(C)]
#[derive(Clone, Copy, PartialEq, Eq)]
pub struct Day {
    pub head: DayHead,
    pub serials: Serials,
    pub rows: Rows,
}

// gm_event of the header.
#[repr(C)]
#[derive(Clone, Copy, Debug, PartialEq, Eq)]
pub struct Event {
    pub kind: u64,
    pub place: u64,
    pub other: u64,
}

// gm_played of the header.
#[repr(C)]
#[derive(Clone, Debug, PartialEq, Eq)]
pub struct Played {
    pub count: u64,
    pub refusal: u64,
    pub day: Day,
}

// All serials and bytes of rows that are not 0, with their positions.
fn show_serials(f: &mut Formatter, name: &str, serials: &Serials) -> Result {
    serials.iter().enumerate().filter(|x| *x.1 != 0).try_for_each(|(k, x)| write!(f, " {name} {k} {x}"))
}

fn show_rows(f: &mut Formatter, rows: &Rows) -> Result {
    rows.iter().enumerate().filter(|x| *x.1 != 0).try_for_each(|(k, x)| write!(f, " row byte {k} {x:02x}"))
}

impl Debug for Recovery {
    fn fmt(&self, f: &mut Formatter) -> Result {
        write!(f, "head {:x?}", self.head)?;
        show_serials(f, "serial", &self.serials)?;
        show_serials(f, "second", &self.seconds)?;
        show_rows(f, &self.rows)
    }
}

impl Debug for Day {
    fn fmt(&self, f: &mut Formatter) -> Result {
        write!(f, "head {:x?}", self.head)?;
        show_serials(f, "serial", &self.serials)?;
        show_rows(f, &self.rows)
    }
}

// gm_end of the header.
#[repr(C)]
#[derive(Clone, Copy, Debug, PartialEq, Eq)]
pub struct End {
    pub refusal: u64,
    pub next: u64,
}

// gm_found of the header.
#[repr(C)]
#[derive(Clone, Copy, Debug, PartialEq, Eq)]
pub struct Found {
    pub answer: u64,
    pub place: u64,
}

// gm_fetching of the header.
#[repr(C)]
#[derive(Clone, Copy, Debug, PartialEq, Eq)]
pub struct Fetching {
    pub number: u64,
    pub place: u64,
}

// gm_game of the header.
#[repr(C)]
#[derive(Clone, Copy, Debug, PartialEq, Eq)]
pub struct Game {
    pub refusal: u64,
    pub fetches: u64,
}

// What gm_ask gives for a place, by its byte in gm_list.
pub const ASKED: [u8; 3] = [34, 33, 35];

unsafe extern "C" {
    fn gm_open(list: *const u32, length: usize, head: &mut Head, serials: &mut Serials, seconds: &mut Serials, rows: &mut Rows) -> u8;
    fn gm_offer(head: &mut Head, serials: &Serials, seconds: &Serials, rows: &mut Rows, bytes: *const u8, length: usize) -> u8;
    fn gm_ask(head: &Head, rows: &Rows, place: usize) -> u8;
    fn gm_find(head: &Head, serials: &Serials, seconds: &Serials, serial: u32) -> Found;
    fn gm_give(head: &Head, serials: &Serials, seconds: &mut Serials, place: usize, serial: u32) -> u8;
    fn gm_unmourned(head: &Head, out: &mut [u64; 2]);
    fn gm_unmourned_absent(head: &Head, out: &mut [u64; 2]);
    fn gm_unmourned_count(head: &Head) -> usize;
    fn gm_settled(head: &Head, rows: &Rows) -> u8;
    fn gm_list(head: &Head, rows: &Rows, out: *mut u8, length: usize) -> u8;
    fn gm_to_fetch(head: &Head, rows: &Rows) -> Fetching;
    fn gm_play(head: &Head, serials: &Serials, seconds: &Serials, rows: &Rows) -> Game;
    fn gm_show(head: &Head, rows: &Rows, place: usize, first: *mut u8, first_length: usize, second: *mut u8, second_length: usize) -> u8;
    fn gm_check(head: &Head, rows: &Rows, history: *const u8, length: usize) -> u8;
    fn gm_write(head: &Head, serials: &Serials, rows: &Rows, place: usize, out: *mut u8, length: usize, at: usize) -> End;
    fn gm_read(
        bytes: *const u8,
        length: usize,
        at: usize,
        firsts: *const u32,
        firsts_length: usize,
        seconds: *const u32,
        seconds_length: usize,
        out: &mut [u64; 7],
    ) -> u8;
    fn gm_read_lone(
        bytes: *const u8,
        length: usize,
        firsts: *const u32,
        firsts_length: usize,
        seconds: *const u32,
        seconds_length: usize,
        out: &mut [u64; 7],
    ) -> u8;
    fn gm_read_desk(
        bytes: *const u8,
        length: usize,
        firsts: *const u32,
        firsts_length: usize,
        seconds: *const u32,
        seconds_length: usize,
        out: &mut [u64; 4],
    ) -> u8;
    fn gm_roster_is(bytes: *const u8, length: usize, at: usize, count: usize, list: *const u32, list_length: usize) -> u8;
    fn gm_copy_roster(bytes: *const u8, length: usize, at: usize, count: usize, list: &mut Serials) -> u8;
    fn gm_write_record(
        kind: u8,
        own: usize,
        roster: *const u32,
        roster_length: usize,
        mourned: &[u64; 2],
        out: *mut u8,
        length: usize,
        at: usize,
    ) -> End;
    fn gm_day_open(kind: u8, list: *const u32, length: usize, head: &mut DayHead, serials: &mut Serials, rows: &mut Rows) -> u8;
    fn gm_day_event(head: &mut DayHead, serials: &Serials, rows: &mut Rows, kind: u8, place: usize, other: usize) -> u8;
    fn gm_day_write(head: &DayHead, serials: &Serials, rows: &Rows, place: usize, out: *mut u8, length: usize, at: usize) -> End;
    fn gm_day_play(day: Day, events: *const Event, length: usize) -> Played;
}

// Each call below lends slices and arrays that Rust knows to be valid and apart, which is all that the header asks.
impl Recovery {
    pub fn zero() -> Self {
        Recovery { head: [0; 9], serials: [0; 128], seconds: [0; 128], rows: [0; 2048] }
    }

    pub fn open(&mut self, list: &[u32]) -> u8 {
        let Recovery { head, serials, seconds, rows } = self;
        unsafe { gm_open(list.as_ptr(), list.len(), head, serials, seconds, rows) }
    }

    // Goes back to nobody returned: what an opening with the same list would write, but for the serials, first and second.
    pub fn reset(&mut self) {
        self.head[1..].fill(0);
        self.rows[..16 * self.head[0] as usize].fill(0);
    }

    pub fn offer(&mut self, bytes: &[u8]) -> u8 {
        let Recovery { head, serials, seconds, rows } = self;
        unsafe { gm_offer(head, serials, seconds, rows, bytes.as_ptr(), bytes.len()) }
    }

    pub fn ask(&self, place: usize) -> u8 {
        unsafe { gm_ask(&self.head, &self.rows, place) }
    }

    pub fn find(&self, serial: u32) -> Found {
        unsafe { gm_find(&self.head, &self.serials, &self.seconds, serial) }
    }

    pub fn give(&mut self, place: usize, serial: u32) -> u8 {
        unsafe { gm_give(&self.head, &self.serials, &mut self.seconds, place, serial) }
    }

    pub fn unmourned(&self, out: &mut [u64; 2]) {
        unsafe { gm_unmourned(&self.head, out) }
    }

    pub fn unmourned_absent(&self, out: &mut [u64; 2]) {
        unsafe { gm_unmourned_absent(&self.head, out) }
    }

    pub fn unmourned_count(&self) -> usize {
        unsafe { gm_unmourned_count(&self.head) }
    }

    pub fn settled(&self) -> u8 {
        unsafe { gm_settled(&self.head, &self.rows) }
    }

    pub fn list(&self, out: &mut [u8]) -> u8 {
        unsafe { gm_list(&self.head, &self.rows, out.as_mut_ptr(), out.len()) }
    }

    pub fn to_fetch(&self) -> Fetching {
        unsafe { gm_to_fetch(&self.head, &self.rows) }
    }

    pub fn play(&self) -> Game {
        unsafe { gm_play(&self.head, &self.serials, &self.seconds, &self.rows) }
    }

    pub fn show(&self, place: usize, first: &mut [u8], second: &mut [u8]) -> u8 {
        let (first, first_length, second, second_length) = (first.as_mut_ptr(), first.len(), second.as_mut_ptr(), second.len());
        unsafe { gm_show(&self.head, &self.rows, place, first, first_length, second, second_length) }
    }

    pub fn check(&self, history: &[u8]) -> u8 {
        unsafe { gm_check(&self.head, &self.rows, history.as_ptr(), history.len()) }
    }

    pub fn write(&self, place: usize, out: &mut [u8], at: usize) -> End {
        unsafe { gm_write(&self.head, &self.serials, &self.rows, place, out.as_mut_ptr(), out.len(), at) }
    }
}

impl Day {
    pub fn zero() -> Self {
        Day { head: [0; 4], serials: [0; 128], rows: [0; 2048] }
    }

    pub fn open(&mut self, kind: u8, list: &[u32]) -> u8 {
        unsafe { gm_day_open(kind, list.as_ptr(), list.len(), &mut self.head, &mut self.serials, &mut self.rows) }
    }

    pub fn event(&mut self, kind: u8, place: usize, other: usize) -> u8 {
        unsafe { gm_day_event(&mut self.head, &self.serials, &mut self.rows, kind, place, other) }
    }

    pub fn play(self, events: &[Event]) -> Played {
        unsafe { gm_day_play(self, events.as_ptr(), events.len()) }
    }

    pub fn write(&self, place: usize, out: &mut [u8], at: usize) -> End {
        unsafe { gm_day_write(&self.head, &self.serials, &self.rows, place, out.as_mut_ptr(), out.len(), at) }
    }
}

pub fn read(bytes: &[u8], at: usize, firsts: &[u32], seconds: &[u32], out: &mut [u64; 7]) -> u8 {
    unsafe { gm_read(bytes.as_ptr(), bytes.len(), at, firsts.as_ptr(), firsts.len(), seconds.as_ptr(), seconds.len(), out) }
}

pub fn read_lone(bytes: &[u8], firsts: &[u32], seconds: &[u32], out: &mut [u64; 7]) -> u8 {
    unsafe { gm_read_lone(bytes.as_ptr(), bytes.len(), firsts.as_ptr(), firsts.len(), seconds.as_ptr(), seconds.len(), out) }
}

// The ticket desk's reading of a lone record: kind, own serial as stored, where the roster's serials start, and how many they are.
pub fn read_desk(bytes: &[u8], firsts: &[u32], seconds: &[u32], out: &mut [u64; 4]) -> u8 {
    unsafe { gm_read_desk(bytes.as_ptr(), bytes.len(), firsts.as_ptr(), firsts.len(), seconds.as_ptr(), seconds.len(), out) }
}

// The roster's serials as a part of the lent bytes, or nothing where the desk's words go past their end.
pub fn desk_roster<'a>(bytes: &'a [u8], words: &[u64; 4]) -> Option<&'a [u8]> {
    let [_, _, start, count] = words.map(|word| word as usize);
    bytes.get(start..)?.get(..count.checked_mul(4)?)
}

pub fn roster_is(bytes: &[u8], at: usize, count: usize, list: &[u32]) -> u8 {
    unsafe { gm_roster_is(bytes.as_ptr(), bytes.len(), at, count, list.as_ptr(), list.len()) }
}

pub fn copy_roster(bytes: &[u8], at: usize, count: usize, list: &mut [u32; 128]) -> u8 {
    unsafe { gm_copy_roster(bytes.as_ptr(), bytes.len(), at, count, list) }
}

pub fn write_record(kind: u8, own: usize, roster: &[u32], mourned: &[u64; 2], out: &mut [u8], at: usize) -> End {
    unsafe { gm_write_record(kind, own, roster.as_ptr(), roster.len(), mourned, out.as_mut_ptr(), out.len(), at) }
}
