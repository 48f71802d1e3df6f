//! The io_uring protocol of Linux as a core in user space, proved correct.
//!
//! A [`Core`] is a pair of rings and its requests, moved one [`Step`] at a time. The two sides of the rings, the application and the dispatcher (the kernel's side), make their steps in any order; each step has one [`Answer`]. A core carries nothing out: the caller says how a running request ended. A [`Machine`] is a core with files in memory. A [`Volume`] is one file, and what a power failure may leave of it; it stands apart from both. A [`CrashMachine`] is a machine whose power may fail. [`Outcomes`] are everything that calls may come to.
//!
//! # What is proved, and what isn't
//!
//! The library below, `libwulgach.a`, is proved: after any calls in any order, each answer is the one that the definitions of the protocol give for the calls before it. This crate isn't proved: it is a thin layer over that library's header, `c/include/wulgach.h`, and is tested. Nor are the Rust compiler, the linker and the allocator of C.
//!
//! # Threads
//!
//! Whatever is made here may be sent to another thread (`Send`), and be used by one at a time (it isn't `Sync`). Nothing in it is tied to a thread: it is memory of `malloc`'s, without locks, handles or variables of a thread. The proof of the library doesn't say so: that is a theorem of nobody.
//!
//! # Traces
//!
//! A [`Step`] and an [`Answer`] are written by `{}` as the trace language of `uring` has them, and `{step} = {answer}` is a line of a recorded trace. [`Setup::trace_line`] is the first one. So a log of an engine goes through `uring check --results`, `uring explain` and their pages as it is.
//!
//! # Other crates
//!
//! None is needed. An [`Entry`] has the bytes of the kernel's `struct io_uring_sqe`, and its [`flags`] are those of `io-uring`, `rustix` and `linux-raw-sys`: it is made from 64 or 128 bytes, and gives both. A [`Completion`] gives what a completion of those has, user data and result, and [`Completion::result`] the result as `std::io` has it. [`Error`] becomes a `std::io::Error`.
//!
//! # Buffers
//!
//! A core copies: what a write puts into a file comes out of its entry, and a read's bytes come with its end. It keeps no address of yours. So a buffer that moves, or is freed while a request uses it, isn't found here: a real ring would read or write what lies there by then.
//!
//! # Building
//!
//! The build looks for `libwulgach.a` in the folder that the variable `WULGACH_LIB_DIR` names, else asks `pkg-config`, else looks into `c/out` of the repository.

mod answer;
mod core;
mod crash_machine;
mod entry;
mod error;
mod ffi;
mod machine;
mod operation;
mod outcomes;
mod reading;
mod setup;
mod step;
mod text;
mod volume;
mod why;

pub use crate::answer::{Answer, Completion};
pub use crate::core::Core;
pub use crate::crash_machine::CrashMachine;
pub use crate::entry::{flags, Entry};
pub use crate::error::Error;
pub use crate::machine::Machine;
pub use crate::operation::Operation;
pub use crate::outcomes::{Outcome, OutcomeFile, Outcomes};
pub use crate::reading::{Counts, FileState};
pub use crate::setup::{Setup, SetupField};
pub use crate::step::Step;
pub use crate::volume::Volume;
pub use crate::why::{Doom, Fault, Since, Why};
