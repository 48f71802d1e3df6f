//! The kinds of steps that `measure` times, and the steps of a round of requests.

use crate::entry::{opcode, Sqe};
use crate::machine::Step;

/// A kind of step on the full path of a no-op.
#[derive(Clone, Copy)]
pub enum Kind {
    Fill,
    Index,
    StoreTail,
    Begin,
    Take,
    End,
    LoadHead,
    Issue,
    Finish,
    LoadCqTail,
    Reap,
    StoreCqHead,
    Flush,
}

/// The kinds in the order of the path, with their names in the names of measures.
pub const PATH: [(Kind, &str); 13] = [
    (Kind::Fill, "fill"),
    (Kind::Index, "index"),
    (Kind::StoreTail, "tail"),
    (Kind::Begin, "begin"),
    (Kind::Take, "take"),
    (Kind::End, "end"),
    (Kind::LoadHead, "head"),
    (Kind::Issue, "issue"),
    (Kind::Finish, "finish"),
    (Kind::LoadCqTail, "cqtail"),
    (Kind::Reap, "reap"),
    (Kind::StoreCqHead, "cqhead"),
    (Kind::Flush, "flush"),
];

impl Kind {
    /// Whether a round has one such step for each of its requests, and not one for all.
    fn is_repeated(self) -> bool {
        use Kind::*;
        matches!(self, Fill | Index | Take | Issue | Finish | Reap)
    }

    fn step(self, slot: u32, number: u64) -> Step {
        match self {
            Kind::Fill => Step::Fill {
                slot,
                entry: Sqe::new(opcode::NOP, number, 0),
            },
            Kind::Index => Step::Index { word: slot },
            Kind::StoreTail => Step::StoreTail,
            Kind::Begin => Step::Begin { count: u32::MAX },
            Kind::Take => Step::Take,
            Kind::End => Step::End,
            Kind::LoadHead => Step::LoadHead,
            Kind::Issue => Step::Issue { number },
            Kind::Finish => Step::Finish { number },
            Kind::LoadCqTail => Step::LoadCqTail,
            Kind::Reap => Step::Reap,
            Kind::StoreCqHead => Step::StoreCqHead,
            Kind::Flush => Step::Flush,
        }
    }

    /// The steps of this kind in a round of `size` requests, numbered from `first` on.
    pub fn steps(self, first: u64, size: u32) -> impl Iterator<Item = Step> {
        let count = if self.is_repeated() { size } else { 1 };
        (0..count).map(move |slot| self.step(slot, first + u64::from(slot)))
    }
}

/// The steps of a round of `size` requests, numbered from `first` on.
pub fn round(first: u64, size: u32) -> impl Iterator<Item = Step> {
    PATH.iter()
        .flat_map(move |(kind, _)| kind.steps(first, size))
}
