//! The error numbers of Linux that requests end with.

pub const ENOENT: i32 = 2;
pub const EBADF: i32 = 9;
pub const EINVAL: i32 = 22;
pub const EFBIG: i32 = 27;
pub const EALREADY: i32 = 114;
pub const ECANCELED: i32 = 125;
