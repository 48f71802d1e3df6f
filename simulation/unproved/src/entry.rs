//! Entries, what one asks for, and what is wrong with it.

use crate::files::FileOp;

pub mod flags {
    pub const IO_DRAIN: u8 = 2;
    pub const IO_LINK: u8 = 4;
    pub const IO_HARDLINK: u8 = 8;
    pub const ASYNC: u8 = 16;
    pub const CQE_SKIP_SUCCESS: u8 = 64;
    pub const REFUSED: u8 = 1 | 32 | 128;
}

pub mod opcode {
    pub const NOP: u8 = 0;
    pub const FSYNC: u8 = 3;
    pub const ASYNC_CANCEL: u8 = 14;
    pub const READ: u8 = 22;
    pub const WRITE: u8 = 23;
}

/// The flag of a cancel that cancels all that it names.
pub const CANCEL_ALL: u32 = 1;

/// An entry of the submission ring.
#[derive(Clone, Copy)]
pub struct Sqe {
    pub opcode: u8,
    pub flags: u8,
    pub ioprio: u16,
    pub fd: i32,
    pub off: u64,
    pub addr: u64,
    pub len: u32,
    pub op_flags: u32,
    pub user_data: u64,
    pub reserved: [u8; 24],
    pub payload: [u8; 64],
}

/// What an entry without a fault asks for.
#[derive(Clone, Copy)]
pub enum Op {
    Nop,
    Cancel { target: u64, is_of_all: bool },
    File(FileOp),
}

impl Sqe {
    pub fn new(opcode: u8, user_data: u64, flags: u8) -> Sqe {
        Sqe {
            opcode,
            flags,
            ioprio: 0,
            fd: 0,
            off: 0,
            addr: 0,
            len: 0,
            op_flags: 0,
            user_data,
            reserved: [0; 24],
            payload: [0; 64],
        }
    }

    /// The entry of these 128 bytes.
    pub fn from_bytes(bytes: &[u8; 128]) -> Sqe {
        fn part<const N: usize>(bytes: &[u8; 128], at: usize) -> [u8; N] {
            bytes[at..at + N].try_into().unwrap()
        }
        Sqe {
            opcode: bytes[0],
            flags: bytes[1],
            ioprio: u16::from_le_bytes(part(bytes, 2)),
            fd: i32::from_le_bytes(part(bytes, 4)),
            off: u64::from_le_bytes(part(bytes, 8)),
            addr: u64::from_le_bytes(part(bytes, 16)),
            len: u32::from_le_bytes(part(bytes, 24)),
            op_flags: u32::from_le_bytes(part(bytes, 28)),
            user_data: u64::from_le_bytes(part(bytes, 32)),
            reserved: part(bytes, 40),
            payload: part(bytes, 64),
        }
    }

    pub fn has(&self, flag: u8) -> bool {
        self.flags & flag != 0
    }

    /// Whether another member of its group follows.
    pub fn is_linked(&self) -> bool {
        self.has(flags::IO_LINK | flags::IO_HARDLINK)
    }

    fn is_cancel_of_all(&self) -> bool {
        self.opcode == opcode::ASYNC_CANCEL && self.op_flags == CANCEL_ALL
    }

    /// What the entry asks for; `None` where it has a fault.
    pub fn prepare(&self) -> Option<Op> {
        let is_faulty = self.has(flags::REFUSED)
            || self.ioprio != 0
            || self.op_flags != 0 && !self.is_cancel_of_all()
            || self.reserved != [0; 24]
            || self.len > 64;
        if is_faulty {
            return None;
        }
        let Sqe { fd, off, len, .. } = *self;
        match self.opcode {
            opcode::NOP => Some(Op::Nop),
            opcode::FSYNC => Some(Op::File(FileOp::Sync { fd })),
            opcode::ASYNC_CANCEL => Some(Op::Cancel {
                target: self.addr,
                is_of_all: self.is_cancel_of_all(),
            }),
            opcode::READ if off != u64::MAX => Some(Op::File(FileOp::Read { fd, off, len })),
            opcode::WRITE if off != u64::MAX => {
                let bytes = self.payload;
                Some(Op::File(FileOp::Write {
                    fd,
                    off,
                    len,
                    bytes,
                }))
            }
            _ => None,
        }
    }
}

impl Op {
    /// Whether an operation that ended with `res` succeeded.
    pub fn succeeded(&self, res: i32) -> bool {
        let wanted = match self {
            Op::Cancel {
                is_of_all: true, ..
            } => return res >= 0,
            Op::File(FileOp::Read { len, .. } | FileOp::Write { len, .. }) => *len,
            _ => 0,
        };
        i64::from(res) == i64::from(wanted)
    }
}
