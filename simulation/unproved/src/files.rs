//! Files in memory, and the operations on them.

use crate::errno;

const MAX_LEN: u64 = 65_536;

#[derive(Clone, Copy)]
pub enum FileOp {
    Read {
        fd: i32,
        off: u64,
        len: u32,
    },
    Write {
        fd: i32,
        off: u64,
        len: u32,
        bytes: [u8; 64],
    },
    Sync {
        fd: i32,
    },
}

/// How an operation ended.
pub struct Outcome {
    pub res: i32,
    pub bytes: [u8; 64],
}

impl Outcome {
    pub fn of(res: i32) -> Outcome {
        Outcome {
            res,
            bytes: [0; 64],
        }
    }
}

#[derive(Clone, Default)]
struct File {
    bytes: Vec<u8>,
    writes: u64,
    synced: u64,
}

/// Files in memory, each named by its place.
pub struct Files(Vec<File>);

impl Files {
    pub fn new(count: u32) -> Files {
        Files(vec![File::default(); count as usize])
    }

    pub fn apply(&mut self, op: &FileOp) -> Outcome {
        let (FileOp::Read { fd, .. } | FileOp::Write { fd, .. } | FileOp::Sync { fd }) = *op;
        let place = usize::try_from(fd).ok();
        let Some(file) = place.and_then(|place| self.0.get_mut(place)) else {
            return Outcome::of(-errno::EBADF);
        };
        match op {
            FileOp::Read { off, len, .. } => file.read(*off, *len),
            FileOp::Write {
                off, len, bytes, ..
            } => Outcome::of(file.write(*off, &bytes[..*len as usize])),
            FileOp::Sync { .. } => {
                file.synced = file.writes;
                Outcome::of(0)
            }
        }
    }
}

impl File {
    fn read(&self, off: u64, len: u32) -> Outcome {
        let size = self.bytes.len();
        let start = size.min(usize::try_from(off).unwrap_or(size));
        let end = size.min(start + len as usize);
        let mut outcome = Outcome::of((end - start) as i32);
        outcome.bytes[..end - start].copy_from_slice(&self.bytes[start..end]);
        outcome
    }

    fn write(&mut self, off: u64, bytes: &[u8]) -> i32 {
        if !bytes.is_empty() {
            if off > MAX_LEN - bytes.len() as u64 {
                return -errno::EFBIG;
            }
            let start = off as usize;
            let end = start + bytes.len();
            if self.bytes.len() < end {
                self.bytes.resize(end, 0);
            }
            self.bytes[start..end].copy_from_slice(bytes);
        }
        self.writes = self.writes.wrapping_add(1);
        bytes.len() as i32
    }
}
