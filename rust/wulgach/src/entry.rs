/// The flags of an entry, with the numbers of `<linux/io_uring.h>`.
pub mod flags {
    /// The entry's group waits for all earlier requests, and all later ones for it.
    pub const IO_DRAIN: u8 = 2;
    /// The next entry is linked to this one.
    pub const IO_LINK: u8 = 4;
    /// The same, and a failure doesn't break the link.
    pub const IO_HARDLINK: u8 = 8;
    /// Changes nothing.
    pub const ASYNC: u8 = 16;
    /// A success posts no completion.
    pub const CQE_SKIP_SUCCESS: u8 = 64;
}

/// An entry of the submission ring: 128 bytes as 16 words, byte 0 in the low byte of word 0. Any words are an entry.
#[derive(Clone, Copy, Debug, PartialEq, Eq)]
#[repr(C)]
pub struct Entry {
    pub(crate) words: [u64; 16],
}

impl Entry {
    /// The entry of these words.
    #[must_use]
    pub fn from_words(words: [u64; 16]) -> Entry {
        Entry { words }
    }

    /// Its words.
    #[must_use]
    pub fn words(&self) -> [u64; 16] {
        self.words
    }

    /// What its completion repeats.
    #[must_use]
    pub fn user_data(&self) -> u64 {
        self.words[4]
    }

    /// An entry of any operation, served or not, every other field zero.
    #[must_use]
    pub fn with_opcode(code: u8, user_data: u64, flags: u8) -> Entry {
        Entry::bare(code, user_data, flags, 0)
    }

    /// The same entry with these bytes for the data of a write, which has as many.
    ///
    /// # Panics
    ///
    /// If there are more than 64.
    #[must_use]
    pub fn with_data(mut self, bytes: &[u8]) -> Entry {
        assert!(bytes.len() <= 64, "an entry has room for 64 bytes");
        self.words[8..].fill(0);
        for (i, byte) in bytes.iter().enumerate() {
            self.words[8 + i / 8] |= u64::from(*byte) << (i % 8 * 8);
        }
        self
    }

    /// Its first 64 bytes, a kernel's `struct io_uring_sqe`. The data of a write isn't among them: a kernel finds that at the address which the entry names.
    #[must_use]
    pub fn without_data(&self) -> [u8; 64] {
        let bytes = <[u8; 128]>::from(*self);
        bytes[..64].try_into().expect("64 bytes")
    }

    pub(crate) fn bare(code: u8, user_data: u64, flags: u8, fd: i32) -> Entry {
        let mut words = [0; 16];
        words[0] = u64::from(code) | u64::from(flags) << 8 | u64::from(fd as u32) << 32;
        words[4] = user_data;
        Entry { words }
    }
}

impl From<[u64; 16]> for Entry {
    fn from(words: [u64; 16]) -> Entry {
        Entry { words }
    }
}

impl From<Entry> for [u64; 16] {
    fn from(entry: Entry) -> [u64; 16] {
        entry.words
    }
}

/// The bytes of an entry of a ring with `IORING_SETUP_SQE128`, or of a core's.
impl From<[u8; 128]> for Entry {
    fn from(bytes: [u8; 128]) -> Entry {
        let mut words = [0; 16];
        for (word, eight) in words.iter_mut().zip(bytes.chunks_exact(8)) {
            *word = u64::from_le_bytes(eight.try_into().expect("eight bytes"));
        }
        Entry { words }
    }
}

/// The bytes of a kernel's `struct io_uring_sqe`, as `io-uring`, `rustix` and `linux-raw-sys` have it. A core takes the data of a write out of the entry: put them in by [`Entry::with_data`].
///
/// ```
/// use wulgach::Entry;
///
/// let mut bytes = [0; 64];
/// bytes[0] = 23; // IORING_OP_WRITE
/// bytes[24] = 3; // len
/// bytes[32] = 7; // user_data
/// let entry = Entry::from(bytes).with_data(b"abc");
/// assert_eq!(entry, Entry::write(7, 0, 0, 0, b"abc"));
/// assert_eq!(entry.without_data(), bytes);
/// ```
impl From<[u8; 64]> for Entry {
    fn from(bytes: [u8; 64]) -> Entry {
        let mut all = [0; 128];
        all[..64].copy_from_slice(&bytes);
        Entry::from(all)
    }
}

impl From<Entry> for [u8; 128] {
    fn from(entry: Entry) -> [u8; 128] {
        let mut bytes = [0; 128];
        for (eight, word) in bytes.chunks_exact_mut(8).zip(entry.words) {
            eight.copy_from_slice(&word.to_le_bytes());
        }
        bytes
    }
}
