//! A ring by system calls of its own, in inline assembler or by the C library's syscall(): a chain of a write, an fsync and a
//! read, a hundred times in each of four threads, of which two call in the one way and two in the other. Run by uring-run;
//! linked with nothing of ours.

use std::arch::asm;
use std::ffi::c_long;
use std::fs::OpenOptions;
use std::os::fd::AsRawFd;
use std::sync::atomic::{AtomicU32, Ordering};

const MMAP: usize = 9;
const SETUP: usize = 425;
const ENTER: usize = 426;
const FSYNC: u8 = 3;
const READ: u8 = 22;
const WRITE: u8 = 23;
const LINK: u8 = 4;

extern "C" {
    fn syscall(number: c_long, ...) -> c_long;
}

fn call_by_libc(number: usize, [a, b, c, d, e, f]: [usize; 6]) -> isize {
    match unsafe { syscall(number as c_long, a, b, c, d, e, f) } {
        -1 => -std::io::Error::last_os_error().raw_os_error().unwrap() as isize,
        result => result as isize,
    }
}

fn call_by_assembler(number: usize, words: [usize; 6]) -> isize {
    let result: isize;
    unsafe {
        asm!("syscall", inlateout("rax") number as isize => result, in("rdi") words[0], in("rsi") words[1], in("rdx") words[2],
            in("r10") words[3], in("r8") words[4], in("r9") words[5], lateout("rcx") _, lateout("r11") _);
    }
    result
}

type Call = fn(usize, [usize; 6]) -> isize;

struct Ring {
    call: Call,
    fd: usize,
    params: [u32; 30],
    sq: usize,
    cq: usize,
    table: usize,
}

impl Ring {
    fn new(call: Call, entries: usize) -> Ring {
        let mut params = [0u32; 30];
        let fd = call(SETUP, [entries, params.as_mut_ptr() as usize, 0, 0, 0, 0]);
        assert!(fd >= 0, "io_uring_setup: {fd}");
        let map = |offset: usize| {
            let at = call(MMAP, [0, 4096, 3, 0x8001, fd as usize, offset]);
            assert!(at > 0, "mmap: {at}");
            at as usize
        };
        Ring { call, fd: fd as usize, params, sq: map(0), cq: map(0x800_0000), table: map(0x1000_0000) }
    }

    fn word(&self, at: usize, offset: u32) -> &AtomicU32 {
        unsafe { &*((at + offset as usize) as *const AtomicU32) }
    }

    fn put(&self, code: u8, flags: u8, fd: i32, address: usize, length: u32, tag: u64) {
        let tail = self.word(self.sq, self.params[11]);
        let slot = tail.load(Ordering::Relaxed) % self.params[0];
        let mut entry = [0u64; 8];
        entry[0] = code as u64 | (flags as u64) << 8 | (fd as u32 as u64) << 32;
        entry[2] = address as u64;
        entry[3] = length as u64;
        entry[4] = tag;
        unsafe { *((self.table + 64 * slot as usize) as *mut [u64; 8]) = entry };
        self.word(self.sq, self.params[16] + 4 * slot).store(slot, Ordering::Relaxed);
        tail.fetch_add(1, Ordering::Release);
    }

    fn submit_and_wait(&self, count: usize) {
        let done = (self.call)(ENTER, [self.fd, count, count, 1, 0, 0]);
        assert_eq!(done, count as isize);
    }

    /// The result of each completion, by its user data.
    fn reap(&self) -> [i32; 4] {
        let (head, tail) = (self.word(self.cq, self.params[20]), self.word(self.cq, self.params[21]));
        let mut results = [i32::MIN; 4];
        while head.load(Ordering::Relaxed) != tail.load(Ordering::Acquire) {
            let at = self.cq + self.params[25] as usize + 16 * (head.load(Ordering::Relaxed) % self.params[1]) as usize;
            let cell = unsafe { *(at as *const [u64; 2]) };
            results[cell[0] as usize] = cell[1] as i32;
            head.fetch_add(1, Ordering::Release);
        }
        results
    }
}

fn work(thread: usize) {
    let path = std::env::temp_dir().join(format!("ring-{}-{thread}", std::process::id()));
    let file = OpenOptions::new().read(true).write(true).create(true).truncate(true).open(&path).unwrap();
    std::fs::remove_file(&path).unwrap();
    let call: Call = if thread % 2 == 0 { call_by_assembler } else { call_by_libc };
    let (ring, fd) = (Ring::new(call, 8), file.as_raw_fd());
    for turn in 0..100 {
        let (text, mut back) = (format!("by Rust {thread} {turn:06}"), [0u8; 16]);
        ring.put(WRITE, LINK, fd, text.as_ptr() as usize, 16, 1);
        ring.put(FSYNC, LINK, fd, 0, 0, 2);
        ring.put(READ, 0, fd, back.as_mut_ptr() as usize, 16, 3);
        ring.submit_and_wait(3);
        assert_eq!(ring.reap()[1..], [16, 0, 16]);
        assert_eq!(back, text.as_bytes());
    }
}

fn main() {
    let threads: Vec<_> = (0..4).map(|it| std::thread::spawn(move || work(it))).collect();
    for thread in threads {
        thread.join().unwrap();
    }
    println!("Rust: 100 chains in each of 4 threads");
}
