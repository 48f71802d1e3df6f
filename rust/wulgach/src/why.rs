use crate::ffi;

/// Why a request stands as it does: exactly one of these.
#[derive(Clone, Copy, Debug, PartialEq, Eq)]
pub enum Why {
    /// No request of this number was accepted.
    NeverAccepted,

    /// It has ended.
    HasEnded,

    /// It was started, and hasn't ended.
    Runs,

    /// It is doomed: it is to end without being started.
    IsDoomed(Doom),

    /// It waits for `least`, the least request that keeps it from starting.
    Waits { least: u64, since: Since },

    /// It may start.
    MayStart,
}

/// What dooms a request: the first of these that does, but that a refused drain goes before all.
#[derive(Clone, Copy, Debug, PartialEq, Eq)]
pub enum Doom {
    /// Its own entry has this fault, and none that is told before it.
    OwnFault(Fault),

    /// The request of this number, the least member of its group with a fault.
    FaultOf(u64),

    /// The request of this number, the least earlier member of its group that has a soft link and failed.
    FailureOf(u64),

    /// A cancel that chose it.
    Cancel,

    /// It asks to drain in a ring that has used skipped success, which Linux's rules refuse.
    RefusedDrain,
}

/// Why a request waits for an earlier one: the first of these that holds.
#[derive(Clone, Copy, Debug, PartialEq, Eq)]
pub enum Since {
    /// Both are members of one group.
    SameGroup,

    /// The earlier one's group drains.
    ItDrains,

    /// The later one's group drains.
    OwnDrains,

    /// The later one's group is deferred, by Linux's rules: until all that isn't deferred has ended.
    Deferred,
}

/// What is wrong with an entry. If several things are, the first in this order is told.
#[derive(Clone, Copy, Debug, PartialEq, Eq)]
pub enum Fault {
    /// A flag that isn't served is set.
    Flags,

    /// The operation code isn't one that is served.
    Opcode,

    /// The priority isn't zero.
    Ioprio,

    /// The operation's own flags aren't zero.
    OpFlags,

    /// One of the bytes 40 to 63 isn't zero.
    Reserved,

    /// The length is above 64, whatever the operation.
    Len,

    /// A read or a write is at offset 2^64 - 1, which stands for the file position.
    Off,
}

pub(crate) const NO_WHY: ffi::Why = ffi::Why {
    number: 0,
    kind: 0,
    reason: 0,
    fault: 0,
};

/// What these words of the library tell.
pub(crate) fn why(words: &ffi::Why) -> Why {
    match words.kind {
        1 => Why::NeverAccepted,
        2 => Why::HasEnded,
        3 => Why::Runs,
        4 => Why::IsDoomed(doom(words)),
        5 => Why::Waits {
            least: words.number,
            since: since(words.reason),
        },
        6 => Why::MayStart,
        _ => unreachable!("the library tells six cases"),
    }
}

fn doom(words: &ffi::Why) -> Doom {
    match words.reason {
        1 => Doom::OwnFault(fault(words.fault)),
        2 => Doom::FaultOf(words.number),
        3 => Doom::FailureOf(words.number),
        4 => Doom::Cancel,
        5 => Doom::RefusedDrain,
        _ => unreachable!("the library tells five dooms"),
    }
}

fn since(word: u32) -> Since {
    match word {
        1 => Since::SameGroup,
        2 => Since::ItDrains,
        3 => Since::OwnDrains,
        4 => Since::Deferred,
        _ => unreachable!("the library tells four reasons to wait"),
    }
}

fn fault(word: u32) -> Fault {
    match word {
        1 => Fault::Flags,
        2 => Fault::Opcode,
        3 => Fault::Ioprio,
        4 => Fault::OpFlags,
        5 => Fault::Reserved,
        6 => Fault::Len,
        7 => Fault::Off,
        _ => unreachable!("the library tells seven faults"),
    }
}
