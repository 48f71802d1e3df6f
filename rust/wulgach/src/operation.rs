//! The operations: how the entry of each is made, and what is read of one that runs.

use crate::entry::Entry;
use crate::ffi;

/// What a running request asks for.
#[derive(Clone, Copy, Debug, PartialEq, Eq)]
pub enum Operation {
    /// Nothing.
    Nop,
    /// `len` bytes of a file, 0 to 64, from an offset on.
    Read { fd: i32, off: u64, len: u32 },
    /// The first `len` of these bytes put into a file at an offset.
    Write {
        fd: i32,
        off: u64,
        len: u32,
        bytes: [u8; 64],
    },
    /// The writes of a file so far noted as safe.
    Fsync { fd: i32 },
    /// The end of another request, or of all that don't run. A cancel never runs: it ends as it is issued.
    Cancel { target: u64, all: bool },
}

impl Operation {
    /// The operation of these words.
    pub(crate) fn of(words: &ffi::Operation) -> Operation {
        match words.code {
            0 => Operation::Nop,
            3 => Operation::Fsync { fd: words.fd },
            14 => Operation::Cancel {
                target: words.target,
                all: words.all != 0,
            },
            22 => Operation::Read {
                fd: words.fd,
                off: words.off,
                len: words.len,
            },
            23 => Operation::Write {
                fd: words.fd,
                off: words.off,
                len: words.len,
                bytes: words.bytes,
            },
            code => unreachable!("no operation has the code {code}"),
        }
    }
}

pub(crate) const NO_OPERATION: ffi::Operation = ffi::Operation {
    code: 0,
    fd: 0,
    off: 0,
    target: 0,
    len: 0,
    all: 0,
    bytes: [0; 64],
};

impl Entry {
    /// A no-op.
    #[must_use]
    pub fn nop(user_data: u64, flags: u8) -> Entry {
        Entry::bare(0, user_data, flags, 0)
    }

    /// A read of `len` bytes from `off` on: at most 64, else the entry is faulty.
    #[must_use]
    pub fn read(user_data: u64, flags: u8, fd: i32, off: u64, len: u32) -> Entry {
        let mut entry = Entry::bare(22, user_data, flags, fd);
        entry.words[1] = off;
        entry.words[3] = len.into();
        entry
    }

    /// A write of these bytes at `off`.
    ///
    /// # Panics
    ///
    /// If there are more than 64.
    #[must_use]
    pub fn write(user_data: u64, flags: u8, fd: i32, off: u64, bytes: &[u8]) -> Entry {
        let mut entry = Entry::bare(23, user_data, flags, fd);
        entry.words[1] = off;
        entry.words[3] = bytes.len() as u64;
        entry.with_data(bytes)
    }

    /// A note that the writes of a file so far are safe.
    #[must_use]
    pub fn fsync(user_data: u64, flags: u8, fd: i32) -> Entry {
        Entry::bare(3, user_data, flags, fd)
    }

    /// A cancel of the request with the user data `target`.
    #[must_use]
    pub fn cancel(user_data: u64, flags: u8, target: u64) -> Entry {
        let mut entry = Entry::bare(14, user_data, flags, 0);
        entry.words[2] = target;
        entry
    }

    /// A cancel of all requests with the user data `target` that don't run, which ends with their number: at most 2^31 - 1.
    #[must_use]
    pub fn cancel_all(user_data: u64, flags: u8, target: u64) -> Entry {
        let mut entry = Entry::cancel(user_data, flags, target);
        entry.words[3] = 1 << 32;
        entry
    }
}
