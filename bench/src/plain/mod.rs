// The same product in plain Rust, written from document 01 and from [2] to [6] of document 02 alone: nothing here is shared with the
// proved library.
pub mod boards;
pub mod day;
pub mod game;
pub mod program;
pub mod record;
pub mod recovery;
pub mod set;

// A refusal is its number.
pub type Refusal = u8;

#[derive(Clone, Copy, Debug, PartialEq, Eq)]
pub enum Kind {
    Full = 1,
    Short = 2,
}

impl Kind {
    pub fn from_byte(byte: u8) -> Result<Self, Refusal> {
        match byte {
            1 => Ok(Kind::Full),
            2 => Ok(Kind::Short),
            _ => Err(2),
        }
    }
}

// Whether a list can be a roster: its length, then zeros anywhere, then repeats anywhere.
pub fn check_roster(list: &[u32]) -> Result<(), Refusal> {
    if !(1..=128).contains(&list.len()) {
        return Err(3);
    }
    if list.contains(&0) {
        return Err(4);
    }
    if (1..list.len()).any(|i| list[..i].contains(&list[i])) {
        return Err(5);
    }
    Ok(())
}
