// Sets of places: bit k is place k.
pub type Set = u128;

pub fn below(n: usize) -> Set {
    if n < 128 { (1 << n) - 1 } else { Set::MAX }
}

pub fn has(set: Set, place: usize) -> bool {
    set >> place & 1 == 1
}

// The places of a set, lowest first.
pub fn members(mut set: Set) -> impl Iterator<Item = usize> {
    std::iter::from_fn(move || {
        let place = (set != 0).then(|| set.trailing_zeros() as usize)?;
        set &= set - 1;
        Some(place)
    })
}
