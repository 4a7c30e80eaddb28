//! Words that are lent to be written. They stand between guards, and hold 2^63, 2^63 + 1, .. or, where they have 32 bits,
//! 2^31, 2^31 + 1, .. before the call: none is 0 or a state, and no two are alike.

const GUARD: usize = 8;

pub trait Word: Copy + PartialEq {
    const ZERO: Self;
    const GUARD_WORD: Self;

    /// What stands at a place before the call.
    fn before(place: usize) -> Self;
}

impl Word for u64 {
    const ZERO: u64 = 0;
    const GUARD_WORD: u64 = 0xA5A5_A5A5_A5A5_A5A5;

    fn before(place: usize) -> u64 {
        (1 << 63) + place as u64
    }
}

impl Word for u32 {
    const ZERO: u32 = 0;
    const GUARD_WORD: u32 = 0xA5A5_A5A5;

    fn before(place: usize) -> u32 {
        (1 << 31) + u32::try_from(place).expect("too much is lent")
    }
}

pub struct Lent<W> {
    name: &'static str,
    all: Vec<W>,
}

impl<W: Word> Lent<W> {
    pub fn new(name: &'static str, length: usize) -> Lent<W> {
        let mut all = vec![W::GUARD_WORD; GUARD];
        all.extend((0..length).map(W::before));
        all.extend([W::GUARD_WORD; GUARD]);
        Lent { name, all }
    }

    pub fn part(&mut self) -> &mut [W] {
        let end = self.all.len() - GUARD;
        &mut self.all[GUARD..end]
    }

    fn guards_hold(&self) -> bool {
        let (front, behind) = (&self.all[..GUARD], &self.all[self.all.len() - GUARD..]);
        front.iter().chain(behind).all(|word| *word == W::GUARD_WORD)
    }

    /// Faults where a guard was written, or where a word from a place on is not 0 or, where it is not to be cleared, not as
    /// it was.
    pub fn faults(&self, from: usize, cleared: bool) -> Vec<String> {
        let lent = &self.all[GUARD..self.all.len() - GUARD];
        let expected = |place| if cleared { W::ZERO } else { W::before(place) };
        let left = lent.iter().enumerate().skip(from).all(|(place, word)| *word == expected(place));
        let mut faults = Vec::new();
        if !left {
            faults.push(format!("{} not {}", self.name, if cleared { "all zeros" } else { "as it was" }));
        }
        if !self.guards_hold() {
            faults.push(format!("{} written beside", self.name));
        }
        faults
    }
}
