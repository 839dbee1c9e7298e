// A recovery: offering, giving second serials, asking, listing, what to fetch, showing, checking.
use super::boards::{Boards, Which};
use super::record::{self, Record};
use super::set::{Set, below, has, members};
use super::{Kind, Refusal, check_roster};

#[derive(Clone, Debug)]
pub struct Recovery {
    pub roster: Vec<u32>,
    // the second serial of each place, 0 where it has none
    pub seconds: Vec<u32>,
    pub returned: Set,
    // those of them whose record is full
    pub full: Set,
    // all that returned records name
    pub mourned: Set,
    // all that are before a returned full place
    pub earlier: Set,
    // the rows of those that are back, and empty ones elsewhere
    pub rows: Vec<Set>,
    // the roster of the record that is being offered
    theirs: Vec<u32>,
}

#[derive(Clone, Copy, Debug, PartialEq, Eq)]
pub enum Offer {
    Taken,
    Repeated,
}

// Each is its byte in a list.
#[derive(Clone, Copy, Debug, PartialEq, Eq)]
pub enum Answer {
    NotLast = 0,
    Last = 1,
    Open = 2,
}

#[derive(Clone, Copy, Debug, PartialEq, Eq)]
pub enum Showing {
    Shown,
    Decided,
}

impl Recovery {
    pub fn new(roster: &[u32]) -> Self {
        let n = roster.len();
        Recovery {
            roster: roster.to_vec(),
            seconds: vec![0; n],
            returned: 0,
            full: 0,
            mourned: 0,
            earlier: 0,
            rows: vec![0; n],
            theirs: Vec::with_capacity(128),
        }
    }

    pub fn open(list: &[u32]) -> Result<Self, Refusal> {
        check_roster(list)?;
        Ok(Recovery::new(list))
    }

    // Goes back to nobody returned, keeps the second serials, and allocates nothing.
    pub fn reset(&mut self) {
        (self.returned, self.full, self.mourned, self.earlier) = (0, 0, 0, 0);
        self.rows.fill(0);
    }

    pub fn offer(&mut self, bytes: &[u8]) -> Result<Offer, Refusal> {
        let mut theirs = std::mem::take(&mut self.theirs);
        let outcome = record::read_lone(bytes, self.boards(), &mut theirs).and_then(|record| self.judge(&record, &theirs));
        self.theirs = theirs;
        outcome
    }

    // A record that was read, with its roster.
    pub fn judge(&mut self, record: &Record, roster: &[u32]) -> Result<Offer, Refusal> {
        let &Record { kind, own, mourned, .. } = record;
        if roster != self.roster {
            return Err(9);
        }
        if has(self.returned, own) {
            let same = kind == self.kind(own) && mourned == self.rows[own];
            return if same { Ok(Offer::Repeated) } else { Err(10) };
        }
        if !self.accepts(own, kind, mourned) {
            return Err(11);
        }
        self.returned |= 1 << own;
        self.mourned |= mourned;
        self.rows[own] = mourned;
        if kind == Kind::Full {
            self.full |= 1 << own;
            self.earlier |= mourned;
        }
        Ok(Offer::Taken)
    }

    // The kind of a returned place.
    fn kind(&self, place: usize) -> Kind {
        if has(self.full, place) { Kind::Full } else { Kind::Short }
    }

    // Whether some history fits the records taken and this one too: nobody is before itself, and the row of a returned full place holds all
    // that are before it. Of those taken only the rows that have this place can lack someone now.
    fn accepts(&self, own: usize, kind: Kind, row: Set) -> bool {
        let before = self.and_before(row);
        !has(before, own)
            && (kind == Kind::Short || before == row)
            && (!has(self.earlier, own)
                || members(self.returned & self.full).all(|p| !has(self.rows[p], own) || before & !self.rows[p] == 0))
    }

    // A set, and all that is before one of it by returned records.
    fn and_before(&self, set: Set) -> Set {
        let (mut seen, mut left) = (set, set & self.returned);
        while left != 0 {
            let new = self.rows[left.trailing_zeros() as usize] & !seen;
            left &= left - 1;
            left |= new & self.returned;
            seen |= new;
        }
        seen
    }

    // Other absent places that are not before a returned full one.
    fn unheard(&self, place: usize) -> Set {
        below(self.roster.len()) & !self.returned & !(1 << place) & !self.earlier
    }

    // Those of them that are not before this one either.
    fn blockers(&self, place: usize) -> Set {
        let others = self.unheard(place);
        // those before a returned full place are among the earlier ones, and all that are before a place are mourned
        if others & self.mourned == 0 || has(self.returned & self.full, place) {
            others
        } else {
            others & !(self.before(place) & self.mourned)
        }
    }

    fn blocked(&self, place: usize) -> bool {
        self.unheard(place) & !self.mourned != 0 || self.blockers(place) != 0
    }

    fn before(&self, place: usize) -> Set {
        self.and_before(self.rows[place])
    }

    fn answer(&self, place: usize) -> Answer {
        if has(self.mourned, place) {
            Answer::NotLast
        } else if self.blocked(place) {
            Answer::Open
        } else {
            Answer::Last
        }
    }

    pub fn ask(&self, place: usize) -> Result<Answer, Refusal> {
        if place >= self.roster.len() { Err(12) } else { Ok(self.answer(place)) }
    }

    pub fn boards(&self) -> Boards<'_> {
        Boards { firsts: &self.roster, seconds: &self.seconds }
    }

    pub fn find(&self, serial: u32) -> Option<(usize, Which)> {
        self.boards().find_on(&self.roster, serial)
    }

    pub fn give(&mut self, place: usize, serial: u32) -> Result<(), Refusal> {
        if place >= self.roster.len() {
            return Err(12);
        }
        if serial == 0 {
            return Err(4);
        }
        if self.find(serial).is_some() || self.seconds[place] != 0 {
            return Err(16);
        }
        self.seconds[place] = serial;
        Ok(())
    }

    pub fn unmourned(&self) -> Set {
        below(self.roster.len()) & !self.mourned
    }

    pub fn unmourned_absent(&self) -> Set {
        self.unmourned() & !self.returned
    }

    pub fn unmourned_count(&self) -> usize {
        self.unmourned().count_ones() as usize
    }

    pub fn settled(&self) -> bool {
        members(self.unmourned()).all(|place| self.answer(place) != Answer::Open)
    }

    // Lays the answers of all places into the front of a buffer, a byte each.
    pub fn list(&self, out: &mut [u8]) -> Result<(), Refusal> {
        let front = out.get_mut(..self.roster.len()).ok_or(13)?;
        front.fill(Answer::NotLast as u8);
        for place in members(self.unmourned()) {
            front[place] = self.answer(place) as u8;
        }
        Ok(())
    }

    // How many fetches surely suffice until the whole is settled, and the place to fetch next: the places that block some unmourned one are
    // so many, and the lowest of them is next. Nothing where there is none.
    pub fn to_fetch(&self) -> Option<(usize, usize)> {
        // no other place can be among them
        let most = below(self.roster.len()) & !self.returned & !self.earlier;
        let mut blocking = 0;
        for place in members(self.unmourned()) {
            blocking |= self.blockers(place);
            if blocking == most {
                break;
            }
        }
        (blocking != 0).then(|| (blocking.count_ones() as usize, blocking.trailing_zeros() as usize))
    }

    pub fn show(&self, place: usize, first: &mut [u8], second: &mut [u8]) -> Result<Showing, Refusal> {
        let n = self.roster.len();
        if self.ask(place)? != Answer::Open {
            return Ok(Showing::Decided);
        }
        if first.len() < 16 * n || second.len() < 16 * n {
            return Err(13);
        }
        for (part, row) in first.chunks_exact_mut(16).zip(&self.rows) {
            part.copy_from_slice(&row.to_le_bytes());
        }
        second[..16 * n].copy_from_slice(&first[..16 * n]);
        let blocker = self.blockers(place).trailing_zeros() as usize;
        second[16 * blocker..][..16].copy_from_slice(&(self.before(place) | 1 << place).to_le_bytes());
        Ok(Showing::Shown)
    }

    pub fn check(&self, history: &[u8]) -> Result<bool, Refusal> {
        let n = self.roster.len();
        let rows = Lent(history.get(..16 * n).ok_or(13)?.as_chunks().0);
        if (0..n).any(|p| rows.row(p) & !below(n) != 0) {
            return Err(15);
        }
        Ok(members(self.returned).all(|p| rows.row(p) == self.rows[p]) && rows.fit(self.returned & self.full))
    }

    pub fn write(&self, place: usize, out: &mut [u8], at: usize) -> Result<usize, Refusal> {
        if place >= self.roster.len() {
            return Err(12);
        }
        if !has(self.returned, place) {
            return Err(14);
        }
        record::write(self.kind(place), place, &self.roster, self.rows[place], out, at)
    }
}

// The rows of a lent history, where they stand.
struct Lent<'a>(&'a [[u8; 16]]);

impl Lent<'_> {
    fn row(&self, place: usize) -> Set {
        Set::from_le_bytes(self.0[place])
    }

    // Whether they are a history in which the row of each of these holds all that are before it, if no row has a place off the roster.
    fn fit(&self, full: Set) -> bool {
        let mut seen = 0;
        (0..self.0.len()).all(|p| has(seen, p) || self.no_circle(p, &mut seen, 0))
            && members(full).all(|p| self.is_closed(self.row(p), full))
    }

    // Whether a row holds the rows of its members. What stands in the row of a full member needs no look: that row is looked at too, so its
    // own members' rows lie in it, or the history is refused for it.
    fn is_closed(&self, row: Set, full: Set) -> bool {
        let mut left = row;
        while left != 0 {
            let member = left.trailing_zeros() as usize;
            let theirs = self.row(member);
            if theirs & !row != 0 {
                return false;
            }
            left &= !(1 << member);
            if has(full, member) {
                left &= !theirs;
            }
        }
        true
    }

    // Goes down from a place that was not seen, over those not seen, and stops at one that stands on the path to itself.
    fn no_circle(&self, place: usize, seen: &mut Set, path: Set) -> bool {
        let row = self.row(place);
        let path = path | 1 << place;
        *seen |= 1 << place;
        if row & path != 0 {
            return false;
        }
        loop {
            let left = row & !*seen;
            if left == 0 {
                return true;
            }
            if !self.no_circle(left.trailing_zeros() as usize, seen, path) {
                return false;
            }
        }
    }
}
