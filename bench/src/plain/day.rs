// A day of stops.
use super::set::{Set, below, has, members};
use super::{Kind, Refusal, check_roster, record};

#[derive(Clone, Debug)]
pub struct Day {
    pub kind: Kind,
    pub roster: Vec<u32>,
    pub stopped: Set,
    pub rows: Vec<Set>,
}

// Kind 1: `place` stops. Kind 2: `place` hears that `other` has stopped.
#[derive(Clone, Copy, Debug, PartialEq, Eq)]
pub struct Event {
    pub kind: u8,
    pub place: usize,
    pub other: usize,
}

impl Day {
    pub fn open(kind: u8, list: &[u32]) -> Result<Self, Refusal> {
        let kind = Kind::from_byte(kind)?;
        check_roster(list)?;
        Ok(Day { kind, roster: list.to_vec(), stopped: 0, rows: vec![0; list.len()] })
    }

    pub fn event(&mut self, event: Event) -> Result<(), Refusal> {
        let Event { kind, place, other } = event;
        let n = self.roster.len();
        match kind {
            1 if place >= n => Err(12),
            1 if has(self.stopped, place) => Err(14),
            1 => {
                self.stopped |= 1 << place;
                Ok(())
            }
            2 if place >= n || other >= n => Err(12),
            2 if has(self.stopped, place) || !has(self.stopped, other) => Err(14),
            2 => {
                let listeners = match self.kind {
                    Kind::Full => below(n) & !self.stopped,
                    Kind::Short => 1 << place,
                };
                members(listeners).for_each(|p| self.rows[p] |= 1 << other);
                Ok(())
            }
            _ => Err(14),
        }
    }

    // Plays events up to the first refusal: how many were played, and what it was.
    pub fn play(&mut self, events: &[Event]) -> (usize, Result<(), Refusal>) {
        for (played, &event) in events.iter().enumerate() {
            if let Err(refusal) = self.event(event) {
                return (played, Err(refusal));
            }
        }
        (events.len(), Ok(()))
    }

    pub fn write(&self, place: usize, out: &mut [u8], at: usize) -> Result<usize, Refusal> {
        if place >= self.roster.len() {
            return Err(12);
        }
        if !has(self.stopped, place) {
            return Err(14);
        }
        record::write(self.kind, place, &self.roster, self.rows[place], out, at)
    }
}
