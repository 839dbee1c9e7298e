// Board swaps: the serials of a group's boards, old and new.

// Which of a place's two serials it is.
#[derive(Clone, Copy, Debug, PartialEq, Eq)]
pub enum Which {
    First,
    Second,
}

// First and second serials, place by place, 0 for none. A reader may be handed lists of any length.
#[derive(Clone, Copy, Debug)]
pub struct Boards<'a> {
    pub firsts: &'a [u32],
    pub seconds: &'a [u32],
}

impl Boards<'_> {
    // Of a group where no board was changed.
    pub const OLD: Self = Boards { firsts: &[], seconds: &[] };

    // The first serial of the place whose second one this is.
    fn first_of(&self, serial: u32) -> Option<u32> {
        let place = self.seconds.iter().position(|&x| x == serial && x != 0)?;
        self.firsts.get(place).copied()
    }

    // The place of a serial on a roster: one that stands there is itself, and only another may be a second one.
    pub fn find_on(&self, roster: &[u32], serial: u32) -> Option<(usize, Which)> {
        let place_of = |serial| roster.iter().position(|&x| x == serial);
        match place_of(serial) {
            Some(place) => Some((place, Which::First)),
            None => Some((place_of(self.first_of(serial)?)?, Which::Second)),
        }
    }
}
