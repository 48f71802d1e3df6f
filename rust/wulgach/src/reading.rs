//! What is read off a core or a machine.

use crate::answer::Completion;
use crate::ffi;

/// How far a core or a machine has come.
#[derive(Clone, Copy, Debug, PartialEq, Eq)]
pub struct Counts {
    /// The requests accepted: their numbers are those below.
    pub accepted: u64,
    /// Those of them that haven't ended.
    pub outstanding: u64,
    /// Those of them that run.
    pub running: u64,
    /// The completions posted.
    pub posted: u64,
    /// The completions reaped.
    pub reaped: u64,
}

/// How a file of a machine stands.
#[derive(Clone, Copy, Debug, PartialEq, Eq)]
pub struct FileState {
    /// Its length in bytes: at most 65,536.
    pub len: u32,
    /// How many writes succeeded, modulo 2^64.
    pub writes: u64,
    /// What `writes` was at the last fsync, 0 if there was none.
    pub synced: u64,
}

pub(crate) const NO_COUNTS: ffi::Counts = ffi::Counts {
    accepted: 0,
    outstanding: 0,
    running: 0,
    posted: 0,
    reaped: 0,
};
pub(crate) const NO_COMPLETION: ffi::Completion = ffi::Completion {
    user_data: 0,
    res: 0,
    bytes: [0; 64],
};
pub(crate) const NO_FILE: ffi::File = ffi::File {
    writes: 0,
    synced: 0,
    len: 0,
};

/// What a call writes that returns 0 if it found something.
pub(crate) fn found<W>(mut words: W, call: impl FnOnce(&mut W) -> i32) -> Option<W> {
    (call(&mut words) == 0).then_some(words)
}

pub(crate) fn file(words: &ffi::File) -> FileState {
    FileState {
        len: words.len,
        writes: words.writes,
        synced: words.synced,
    }
}

pub(crate) fn counts(words: &ffi::Counts) -> Counts {
    Counts {
        accepted: words.accepted,
        outstanding: words.outstanding,
        running: words.running,
        posted: words.posted,
        reaped: words.reaped,
    }
}

pub(crate) fn completion(words: &ffi::Completion) -> Completion {
    Completion {
        user_data: words.user_data,
        res: words.res,
        bytes: words.bytes,
    }
}
