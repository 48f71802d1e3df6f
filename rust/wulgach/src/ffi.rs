//! The structs and functions of `c/include/wulgach.h`.

use crate::entry::Entry;
use std::ffi::c_void;

/// A place for a core, a machine, a volume, a crash machine or outcomes. All zero: empty.
#[repr(C)]
#[derive(Debug)]
pub struct Place {
    pub at: *mut c_void,
    pub is_full: bool,
}

// SAFETY: what a place points to is the library's alone: memory of malloc's, which any thread may use and free, and no lock, handle or variable of a thread. The library's proof says nothing of threads, so this is a theorem of nobody: it rests on a reading of the library.
unsafe impl Send for Place {}

impl Place {
    pub const fn empty() -> Place {
        Place {
            at: std::ptr::null_mut(),
            is_full: false,
        }
    }
}

#[repr(C)]
pub struct Setup {
    pub sq: u32,
    pub cq: u32,
    pub files: u32,
    pub start: u32,
    pub has_cq: bool,
    pub stops: bool,
    pub linux_rules: bool,
}

#[repr(C)]
pub struct Step {
    pub kind: u32,
    pub word: u32,
    pub number: u64,
    pub entry: [u64; 16],
}

#[repr(C)]
pub struct Answer {
    pub kind: u32,
    pub word: u32,
    pub dropped: u32,
    pub head: u32,
    pub number: u64,
    pub entry: [u64; 16],
    pub res: i32,
    pub bytes: [u8; 64],
}

impl Answer {
    pub const ZERO: Answer = Answer {
        kind: 0,
        word: 0,
        dropped: 0,
        head: 0,
        number: 0,
        entry: [0; 16],
        res: 0,
        bytes: [0; 64],
    };
}

#[repr(C)]
pub struct Bytes {
    pub bytes: [u8; 64],
}

#[repr(C)]
pub struct Counts {
    pub accepted: u64,
    pub outstanding: u64,
    pub running: u64,
    pub posted: u64,
    pub reaped: u64,
}

#[repr(C)]
#[derive(Clone, Copy)]
pub struct Completion {
    pub user_data: u64,
    pub res: i32,
    pub bytes: [u8; 64],
}

#[repr(C)]
pub struct Operation {
    pub code: u32,
    pub fd: i32,
    pub off: u64,
    pub target: u64,
    pub len: u32,
    pub all: u32,
    pub bytes: [u8; 64],
}

#[repr(C)]
pub struct Why {
    pub number: u64,
    pub kind: u32,
    pub reason: u32,
    pub fault: u32,
}

#[repr(C)]
pub struct File {
    pub writes: u64,
    pub synced: u64,
    pub len: u32,
}

extern "C" {
    pub fn wulgach_setup_fault(setup: *const Setup) -> i32;
    pub fn wulgach_trace_line(
        step: *const Step,
        answer: *const Answer,
        line: *mut u8,
        room: usize,
        len: *mut u64,
    ) -> i32;
    pub fn wulgach_trace_setup(
        setup: *const Setup,
        line: *mut u8,
        room: usize,
        len: *mut u64,
    ) -> i32;
    pub fn wulgach_core_new(core: *mut Place, setup: *const Setup) -> i32;
    pub fn wulgach_core_step(core: *mut Place, step: *const Step, answer: *mut Answer) -> i32;
    pub fn wulgach_core_submit(
        core: *mut Place,
        entries: *const Entry,
        count: usize,
        answer: *mut Answer,
    ) -> i32;
    pub fn wulgach_core_reap_all(
        core: *mut Place,
        completions: *mut Completion,
        room: usize,
        count: *mut u64,
    ) -> i32;
    pub fn wulgach_core_finish(
        core: *mut Place,
        number: u64,
        res: i32,
        bytes: *const Bytes,
        answer: *mut Answer,
    ) -> i32;
    pub fn wulgach_core_counts(core: *mut Place, counts: *mut Counts) -> i32;
    pub fn wulgach_core_rest(core: *mut Place, index: u64, completion: *mut Completion) -> i32;
    pub fn wulgach_core_running_op(core: *mut Place, number: u64, operation: *mut Operation)
        -> i32;
    pub fn wulgach_core_least(core: *mut Place, number: *mut u64) -> i32;
    pub fn wulgach_core_next_issuable(core: *mut Place, from: u64, number: *mut u64) -> i32;
    pub fn wulgach_core_issuable(core: *mut Place, count: *mut u64) -> i32;
    pub fn wulgach_core_nth_issuable(core: *mut Place, index: u64, number: *mut u64) -> i32;
    pub fn wulgach_core_why(core: *mut Place, number: u64, why: *mut Why) -> i32;
    pub fn wulgach_core_free(core: *mut Place) -> i32;
    pub fn wulgach_machine_new(machine: *mut Place, setup: *const Setup) -> i32;
    pub fn wulgach_machine_step(machine: *mut Place, step: *const Step, answer: *mut Answer)
        -> i32;
    pub fn wulgach_machine_counts(machine: *mut Place, counts: *mut Counts) -> i32;
    pub fn wulgach_machine_rest(
        machine: *mut Place,
        index: u64,
        completion: *mut Completion,
    ) -> i32;
    pub fn wulgach_machine_running_op(
        machine: *mut Place,
        number: u64,
        operation: *mut Operation,
    ) -> i32;
    pub fn wulgach_machine_state(machine: *mut Place, fd: i32, file: *mut File) -> i32;
    pub fn wulgach_machine_byte(machine: *mut Place, fd: i32, at: u64, byte: *mut u8) -> i32;
    pub fn wulgach_machine_least(machine: *mut Place, number: *mut u64) -> i32;
    pub fn wulgach_machine_next_issuable(machine: *mut Place, from: u64, number: *mut u64) -> i32;
    pub fn wulgach_machine_issuable(machine: *mut Place, count: *mut u64) -> i32;
    pub fn wulgach_machine_nth_issuable(machine: *mut Place, index: u64, number: *mut u64) -> i32;
    pub fn wulgach_machine_why(machine: *mut Place, number: u64, why: *mut Why) -> i32;
    pub fn wulgach_machine_free(machine: *mut Place) -> i32;
    pub fn wulgach_volume_new(volume: *mut Place, unit: u64, bytes: *const u8, len: usize) -> i32;
    pub fn wulgach_volume_begin_write(
        volume: *mut Place,
        off: u64,
        bytes: *const u8,
        len: usize,
        number: *mut u64,
    ) -> i32;
    pub fn wulgach_volume_end_write(volume: *mut Place, number: u64) -> i32;
    pub fn wulgach_volume_fail_write(volume: *mut Place, number: u64) -> i32;
    pub fn wulgach_volume_begin_sync(volume: *mut Place, number: *mut u64) -> i32;
    pub fn wulgach_volume_begin_range_sync(
        volume: *mut Place,
        off: u64,
        len: u64,
        number: *mut u64,
    ) -> i32;
    pub fn wulgach_volume_end_sync(volume: *mut Place, number: u64) -> i32;
    pub fn wulgach_volume_fail_sync(volume: *mut Place, number: u64) -> i32;
    pub fn wulgach_volume_is_safe(volume: *mut Place, number: u64, is_safe: *mut bool) -> i32;
    pub fn wulgach_volume_contents(
        volume: *mut Place,
        bytes: *mut u8,
        room: usize,
        len: *mut u64,
    ) -> i32;
    pub fn wulgach_volume_crash(
        volume: *mut Place,
        choice: *const u64,
        count: usize,
        bytes: *mut u8,
        room: usize,
        len: *mut u64,
    ) -> i32;
    pub fn wulgach_volume_count_images(volume: *mut Place, count: *mut u64) -> i32;
    pub fn wulgach_volume_images(
        volume: *mut Place,
        bytes: *mut u8,
        room: usize,
        lens: *mut u64,
        most: usize,
        count: *mut u64,
        total: *mut u64,
    ) -> i32;
    pub fn wulgach_volume_fold(volume: *mut Place) -> i32;
    pub fn wulgach_volume_free(volume: *mut Place) -> i32;
    pub fn wulgach_crash_machine_on(
        machine: *mut Place,
        setup: *const Setup,
        unit: u64,
        bytes: *const u8,
        len: usize,
        lens: *const u64,
        count: usize,
    ) -> i32;
    pub fn wulgach_crash_machine_step(
        machine: *mut Place,
        step: *const Step,
        answer: *mut Answer,
    ) -> i32;
    pub fn wulgach_crash_machine_is_lost(machine: *mut Place, is_lost: *mut bool) -> i32;
    pub fn wulgach_crash_machine_counts(machine: *mut Place, counts: *mut Counts) -> i32;
    pub fn wulgach_crash_machine_rest(
        machine: *mut Place,
        index: u64,
        completion: *mut Completion,
    ) -> i32;
    pub fn wulgach_crash_machine_running_op(
        machine: *mut Place,
        number: u64,
        operation: *mut Operation,
    ) -> i32;
    pub fn wulgach_crash_machine_issuable(machine: *mut Place, count: *mut u64) -> i32;
    pub fn wulgach_crash_machine_nth_issuable(
        machine: *mut Place,
        index: u64,
        number: *mut u64,
    ) -> i32;
    pub fn wulgach_crash_machine_state(machine: *mut Place, fd: i32, file: *mut File) -> i32;
    pub fn wulgach_crash_machine_byte(machine: *mut Place, fd: i32, at: u64, byte: *mut u8) -> i32;
    pub fn wulgach_crash_machine_is_safe(
        machine: *mut Place,
        fd: i32,
        number: u64,
        is_safe: *mut bool,
    ) -> i32;
    pub fn wulgach_crash_machine_image(
        machine: *mut Place,
        fd: i32,
        choice: *const u64,
        count: usize,
        bytes: *mut u8,
        room: usize,
        len: *mut u64,
    ) -> i32;
    pub fn wulgach_crash_machine_count_images(machine: *mut Place, fd: i32, count: *mut u64)
        -> i32;
    pub fn wulgach_crash_machine_images(
        machine: *mut Place,
        fd: i32,
        bytes: *mut u8,
        room: usize,
        lens: *mut u64,
        most: usize,
        count: *mut u64,
        total: *mut u64,
    ) -> i32;
    pub fn wulgach_crash_machine_crash(
        machine: *mut Place,
        next: *mut Place,
        numbers: *const u64,
        total: usize,
        lens: *const u64,
        count: usize,
    ) -> i32;
    pub fn wulgach_crash_machine_fold(machine: *mut Place) -> i32;
    pub fn wulgach_crash_machine_free(machine: *mut Place) -> i32;
    pub fn wulgach_outcomes_new(
        outcomes: *mut Place,
        setup: *const Setup,
        entries: *const Entry,
        total: usize,
        lens: *const u64,
        calls: usize,
        most: u64,
        is_all: *mut bool,
    ) -> i32;
    pub fn wulgach_outcomes_count(outcomes: *mut Place, count: *mut u64, is_all: *mut bool) -> i32;
    pub fn wulgach_outcomes_completions(
        outcomes: *mut Place,
        index: u64,
        completions: *mut Completion,
        room: usize,
        count: *mut u64,
    ) -> i32;
    pub fn wulgach_outcomes_state(
        outcomes: *mut Place,
        index: u64,
        fd: i32,
        file: *mut File,
    ) -> i32;
    pub fn wulgach_outcomes_byte(
        outcomes: *mut Place,
        index: u64,
        fd: i32,
        at: u64,
        byte: *mut u8,
    ) -> i32;
    pub fn wulgach_outcomes_free(outcomes: *mut Place) -> i32;
}
