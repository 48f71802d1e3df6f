use crate::entry::Entry;
use crate::ffi;

/// One step of the application or of the dispatcher, the kernel's side of the rings. Any number may stand in a step: what is out of range is refused, or dropped.
#[derive(Clone, Copy, Debug, PartialEq, Eq)]
pub enum Step {
    /// The application writes an entry to a slot of the entry table.
    Fill { slot: u32, entry: Entry },
    /// The application stages a word: the slot of its next position, or any other word.
    Index { word: u32 },
    /// The application publishes what is staged.
    StoreTail,
    /// The application loads the submission ring's head.
    LoadHead,
    /// The dispatcher opens a call of at most this many positions.
    Begin { count: u32 },
    /// The dispatcher copies the call's next position.
    Take,
    /// The dispatcher closes the call, and accepts its entries.
    End,
    /// The dispatcher issues the request of this number, in the order of acceptance from 0.
    Issue { number: u64 },
    /// The dispatcher finishes the running request of this number. For a `Machine`.
    Finish { number: u64 },
    /// The dispatcher loads the completion ring's head, and moves what fits from the overflow list into the ring.
    Flush,
    /// The application loads the completion ring's tail.
    LoadCqTail,
    /// The application copies the next completion.
    Reap,
    /// The application stores the completion ring's head.
    StoreCqHead,
    /// The dispatcher closes the ring: no call is opened from then on.
    Close,
    /// The dispatcher asks for the least request that can be issued.
    Next,
}

impl Step {
    pub(crate) fn words(self) -> ffi::Step {
        let bare = |kind| ffi::Step {
            kind,
            word: 0,
            number: 0,
            entry: [0; 16],
        };
        match self {
            Step::Fill { slot, entry } => ffi::Step {
                word: slot,
                entry: entry.words(),
                ..bare(0)
            },
            Step::Index { word } => ffi::Step { word, ..bare(1) },
            Step::StoreTail => bare(2),
            Step::LoadHead => bare(3),
            Step::Begin { count } => ffi::Step {
                word: count,
                ..bare(4)
            },
            Step::Take => bare(5),
            Step::End => bare(6),
            Step::Issue { number } => ffi::Step { number, ..bare(7) },
            Step::Finish { number } => ffi::Step { number, ..bare(8) },
            Step::Flush => bare(9),
            Step::LoadCqTail => bare(10),
            Step::Reap => bare(11),
            Step::StoreCqHead => bare(12),
            Step::Close => bare(13),
            Step::Next => bare(14),
        }
    }
}
