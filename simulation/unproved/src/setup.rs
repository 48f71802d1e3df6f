//! Set-ups, and their limits.

/// The sizes of a pair of rings, the number of its files, the word at which both rings begin, and whether a call stops after an entry with a fault.
#[derive(Clone, Copy)]
pub struct Setup {
    pub sq: u32,
    pub cq: u32,
    pub files: u32,
    pub start: u32,
    pub stops: bool,
}

impl Setup {
    /// `None` where a number is out of its range.
    pub fn new(sq: u32, cq: Option<u32>, files: u32, start: u32) -> Option<Setup> {
        if !(1..=4096).contains(&sq) || !(1..=64).contains(&files) {
            return None;
        }
        let sq = sq.next_power_of_two();
        let cq = cq.unwrap_or(2 * sq);
        if !(1..=8192).contains(&cq) {
            return None;
        }
        let cq = cq.next_power_of_two();
        (sq <= cq).then_some(Setup {
            sq,
            cq,
            files,
            start,
            stops: false,
        })
    }
}
