use crate::entry::Entry;
use crate::ffi;
use std::fmt;
use std::io;

/// A completion: the user data of its request, the result, and 64 bytes, those that a read gave first. `{:?}` shows as many bytes as that of an answer.
#[derive(Clone, Copy, PartialEq, Eq)]
pub struct Completion {
    pub user_data: u64,
    /// 0 or more, or the negative of an error number.
    pub res: i32,
    pub bytes: [u8; 64],
}

impl Completion {
    /// The result as `std::io` has it.
    ///
    /// # Errors
    ///
    /// The error of the system whose number the result is the negative of.
    pub fn result(&self) -> io::Result<u32> {
        u32::try_from(self.res).map_err(|_| io::Error::from_raw_os_error(self.res.wrapping_neg()))
    }
}

/// The user data and the result, which are all that a completion of a kernel's has.
impl From<Completion> for (u64, i32) {
    fn from(completion: Completion) -> (u64, i32) {
        (completion.user_data, completion.res)
    }
}

/// The bytes that an end gives: as many as its result says, and further ones up to the last that isn't zero. None if all are zero.
fn given(res: i32, bytes: &[u8; 64]) -> &[u8] {
    match bytes.iter().rposition(|byte| *byte != 0) {
        Some(last) => {
            &bytes[..usize::try_from(res)
                .map_or(0, |res| res.min(64))
                .max(last + 1)]
        }
        None => &[],
    }
}

impl fmt::Debug for Completion {
    fn fmt(&self, f: &mut fmt::Formatter<'_>) -> fmt::Result {
        f.debug_struct("Completion")
            .field("user_data", &self.user_data)
            .field("res", &self.res)
            .field("bytes", &given(self.res, &self.bytes))
            .finish()
    }
}

/// The answer to a step. A refusal changes nothing.
///
/// `{:?}` shows of an end's 64 bytes those that a read gave, as many as its result says, and further ones up to the last that isn't zero. If all are zero, it shows none.
///
/// ```
/// # use wulgach::Answer;
/// let mut bytes = [0; 64];
/// assert_eq!(format!("{:?}", Answer::Ended { res: -5, bytes }), "Ended { res: -5, bytes: [] }");
/// bytes[0] = 7;
/// assert_eq!(format!("{:?}", Answer::Ended { res: 2, bytes }), "Ended { res: 2, bytes: [7, 0] }");
/// ```
#[derive(Clone, Copy, PartialEq, Eq)]
pub enum Answer {
    /// To `Fill`: the slot holds the entry.
    Filled,
    /// To `Fill`: the slot isn't below the submission ring's size.
    NoSlot,
    /// To `Fill`: a published position that isn't known to be taken names the slot.
    Busy,
    /// To `Index`: the word is staged.
    Staged,
    /// To `Index`: the ring is full, as far as the application knows.
    Full,
    /// To `StoreTail` and `LoadCqTail`: the tail as an index word.
    Tail(u32),
    /// To `LoadHead` and `StoreCqHead`: the head as an index word.
    Head(u32),
    /// To `Begin`: a call of this many positions is open.
    Call(u32),
    /// To `Begin`: the ring is closed.
    Closed,
    /// To `Begin` and `Close`: a call is open.
    InCall,
    /// To `Begin`: the numbers of requests are used up.
    Spent,
    /// To `Begin`: out of memory; nothing is consumed.
    Again,
    /// To `Take`: a copy of the entry that the position names.
    Entry(Entry),
    /// To `Take`: the position's word names no slot, and is dropped.
    Dropped,
    /// To `Take`: every position of the call is taken.
    NoMore,
    /// To `Take` and `End`: no call is open.
    NoCall,
    /// To `End`: how many entries were accepted, how many words were ever dropped (modulo 2^32), and the head.
    Taken {
        accepted: u32,
        dropped: u32,
        head: u32,
    },
    /// To `End`: positions of the call are left.
    NotAll,
    /// To `Issue`: the request runs.
    Run,
    /// To `Issue` and `Finish`: the request ended with this result and these bytes.
    Ended { res: i32, bytes: [u8; 64] },
    /// To `Issue`: the request waits for earlier ones.
    NotReady,
    /// To `Issue`: the request runs already.
    Running,
    /// To `Issue`: no such request is outstanding.
    Unknown,
    /// To `Finish`: the request isn't running.
    NotRunning,
    /// To `Flush`: how many completions moved into the ring.
    Moved(u64),
    /// To `Reap`: the next completion.
    Reaped(Completion),
    /// To `Reap`: no completion is shown. To `Next`: no request can be issued.
    Nothing,
    /// To `Close`: the ring is closed.
    Shut,
    /// To `Next`: the least request that can be issued.
    Next(u64),
}

impl fmt::Debug for Answer {
    fn fmt(&self, f: &mut fmt::Formatter<'_>) -> fmt::Result {
        match self {
            Answer::Filled => f.write_str("Filled"),
            Answer::NoSlot => f.write_str("NoSlot"),
            Answer::Busy => f.write_str("Busy"),
            Answer::Staged => f.write_str("Staged"),
            Answer::Full => f.write_str("Full"),
            Answer::Tail(word) => f.debug_tuple("Tail").field(word).finish(),
            Answer::Head(word) => f.debug_tuple("Head").field(word).finish(),
            Answer::Call(count) => f.debug_tuple("Call").field(count).finish(),
            Answer::Closed => f.write_str("Closed"),
            Answer::InCall => f.write_str("InCall"),
            Answer::Spent => f.write_str("Spent"),
            Answer::Again => f.write_str("Again"),
            Answer::Entry(entry) => f.debug_tuple("Entry").field(entry).finish(),
            Answer::Dropped => f.write_str("Dropped"),
            Answer::NoMore => f.write_str("NoMore"),
            Answer::NoCall => f.write_str("NoCall"),
            Answer::Taken {
                accepted,
                dropped,
                head,
            } => f
                .debug_struct("Taken")
                .field("accepted", accepted)
                .field("dropped", dropped)
                .field("head", head)
                .finish(),
            Answer::NotAll => f.write_str("NotAll"),
            Answer::Run => f.write_str("Run"),
            Answer::Ended { res, bytes } => f
                .debug_struct("Ended")
                .field("res", res)
                .field("bytes", &given(*res, bytes))
                .finish(),
            Answer::NotReady => f.write_str("NotReady"),
            Answer::Running => f.write_str("Running"),
            Answer::Unknown => f.write_str("Unknown"),
            Answer::NotRunning => f.write_str("NotRunning"),
            Answer::Moved(count) => f.debug_tuple("Moved").field(count).finish(),
            Answer::Reaped(completion) => f.debug_tuple("Reaped").field(completion).finish(),
            Answer::Nothing => f.write_str("Nothing"),
            Answer::Shut => f.write_str("Shut"),
            Answer::Next(number) => f.debug_tuple("Next").field(number).finish(),
        }
    }
}

impl Answer {
    pub(crate) fn words(&self) -> ffi::Answer {
        let bare = |kind| ffi::Answer {
            kind,
            ..ffi::Answer::ZERO
        };
        let worded = |kind, word| ffi::Answer { word, ..bare(kind) };
        let numbered = |kind, number| ffi::Answer {
            number,
            ..bare(kind)
        };
        match *self {
            Answer::Filled => bare(0),
            Answer::NoSlot => bare(1),
            Answer::Busy => bare(2),
            Answer::Staged => bare(3),
            Answer::Full => bare(4),
            Answer::Tail(word) => worded(5, word),
            Answer::Head(word) => worded(6, word),
            Answer::Call(count) => worded(7, count),
            Answer::Closed => bare(8),
            Answer::InCall => bare(9),
            Answer::Spent => bare(10),
            Answer::Again => bare(11),
            Answer::Entry(entry) => ffi::Answer {
                entry: entry.words(),
                ..bare(12)
            },
            Answer::Dropped => bare(13),
            Answer::NoMore => bare(14),
            Answer::NoCall => bare(15),
            Answer::Taken {
                accepted,
                dropped,
                head,
            } => ffi::Answer {
                dropped,
                head,
                ..worded(16, accepted)
            },
            Answer::NotAll => bare(17),
            Answer::Run => bare(18),
            Answer::Ended { res, bytes } => ffi::Answer {
                res,
                bytes,
                ..bare(19)
            },
            Answer::NotReady => bare(20),
            Answer::Running => bare(21),
            Answer::Unknown => bare(22),
            Answer::NotRunning => bare(23),
            Answer::Moved(count) => numbered(24, count),
            Answer::Reaped(Completion {
                user_data,
                res,
                bytes,
            }) => ffi::Answer {
                res,
                bytes,
                ..numbered(25, user_data)
            },
            Answer::Nothing => bare(26),
            Answer::Shut => bare(27),
            Answer::Next(number) => numbered(28, number),
        }
    }

    pub(crate) fn of(words: &ffi::Answer) -> Answer {
        match words.kind {
            0 => Answer::Filled,
            1 => Answer::NoSlot,
            2 => Answer::Busy,
            3 => Answer::Staged,
            4 => Answer::Full,
            5 => Answer::Tail(words.word),
            6 => Answer::Head(words.word),
            7 => Answer::Call(words.word),
            8 => Answer::Closed,
            9 => Answer::InCall,
            10 => Answer::Spent,
            11 => Answer::Again,
            12 => Answer::Entry(Entry::from_words(words.entry)),
            13 => Answer::Dropped,
            14 => Answer::NoMore,
            15 => Answer::NoCall,
            16 => Answer::Taken {
                accepted: words.word,
                dropped: words.dropped,
                head: words.head,
            },
            17 => Answer::NotAll,
            18 => Answer::Run,
            19 => Answer::Ended {
                res: words.res,
                bytes: words.bytes,
            },
            20 => Answer::NotReady,
            21 => Answer::Running,
            22 => Answer::Unknown,
            23 => Answer::NotRunning,
            24 => Answer::Moved(words.number),
            25 => Answer::Reaped(Completion {
                user_data: words.number,
                res: words.res,
                bytes: words.bytes,
            }),
            26 => Answer::Nothing,
            27 => Answer::Shut,
            28 => Answer::Next(words.number),
            kind => unreachable!("no answer has the kind {kind}"),
        }
    }
}
