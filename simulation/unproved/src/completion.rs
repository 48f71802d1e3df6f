//! Completions, and their ring with its overflow list.

use crate::setup::Setup;
use std::collections::VecDeque;

/// A completion.
#[derive(Clone, Copy)]
pub struct Cqe {
    pub user_data: u64,
    pub res: i32,
    pub payload: [u8; 64],
}

/// The completion ring, with its overflow list.
pub struct CompletionRing {
    tail: u32,
    head: u32,
    seen_head: u32,
    seen_tail: u32,
    next: u32,
    cells: Vec<Cqe>,
    overflow: VecDeque<Cqe>,
}

impl CompletionRing {
    pub fn new(setup: &Setup) -> CompletionRing {
        let empty = Cqe {
            user_data: 0,
            res: 0,
            payload: [0; 64],
        };
        CompletionRing {
            tail: setup.start,
            head: setup.start,
            seen_head: setup.start,
            seen_tail: setup.start,
            next: setup.start,
            cells: vec![empty; setup.cq as usize],
            overflow: VecDeque::new(),
        }
    }

    fn cell(&self, position: u32) -> usize {
        position as usize & (self.cells.len() - 1)
    }

    fn is_full(&self) -> bool {
        self.tail.wrapping_sub(self.seen_head) as usize >= self.cells.len()
    }

    fn put(&mut self, completion: Cqe) {
        let cell = self.cell(self.tail);
        self.cells[cell] = completion;
        self.tail = self.tail.wrapping_add(1);
    }

    pub fn post(&mut self, completion: Cqe) {
        if self.overflow.is_empty() && !self.is_full() {
            self.put(completion);
        } else {
            self.overflow.push_back(completion);
        }
    }

    /// Moves what fits from the overflow list into the ring, and answers how many.
    pub fn flush(&mut self) -> u64 {
        self.seen_head = self.head;
        let mut moved = 0;
        while !self.is_full() {
            let Some(completion) = self.overflow.pop_front() else {
                break;
            };
            self.put(completion);
            moved += 1;
        }
        moved
    }

    pub fn load_tail(&mut self) -> u32 {
        self.seen_tail = self.tail;
        self.tail
    }

    pub fn reap(&mut self) -> Option<Cqe> {
        if self.next == self.seen_tail {
            return None;
        }
        let completion = self.cells[self.cell(self.next)];
        self.next = self.next.wrapping_add(1);
        Some(completion)
    }

    pub fn store_head(&mut self) -> u32 {
        self.head = self.next;
        self.head
    }
}
