//! The submission ring: slots, index words, and the open call.

use crate::entry::{opcode, Sqe};
use crate::setup::Setup;

struct Call {
    count: u32,
    taken: u32,
    accepted: u32,
    /// The last entry taken was its last.
    is_over: bool,
}

/// The submission ring. Heads and tails run freely and wrap at 32 bits.
pub struct SubmissionRing {
    tail: u32,
    published: u32,
    head: u32,
    seen_head: u32,
    dropped: u32,
    stops: bool,
    call: Option<Call>,
    table: Vec<Sqe>,
    array: Vec<u32>,
}

pub enum Fill {
    Filled,
    NoSlot,
    Busy,
}

pub enum Take {
    Entry(Sqe),
    Dropped,
    NoMore,
    NoCall,
}

pub enum End {
    Taken {
        accepted: u32,
        dropped: u32,
        head: u32,
    },
    NoCall,
    NotAll,
}

impl SubmissionRing {
    pub fn new(setup: &Setup) -> SubmissionRing {
        let size = setup.sq as usize;
        SubmissionRing {
            tail: setup.start,
            published: setup.start,
            head: setup.start,
            seen_head: setup.start,
            dropped: 0,
            stops: setup.stops,
            call: None,
            table: vec![Sqe::new(opcode::NOP, 0, 0); size],
            array: vec![0; size],
        }
    }

    fn size(&self) -> u32 {
        self.array.len() as u32
    }

    fn cell(&self, position: u32) -> usize {
        (position & (self.size() - 1)) as usize
    }

    pub fn fill(&mut self, slot: u32, entry: Sqe) -> Fill {
        if slot >= self.size() {
            return Fill::NoSlot;
        }
        let unseen = self.published.wrapping_sub(self.seen_head);
        let is_busy =
            (0..unseen).any(|k| self.array[self.cell(self.seen_head.wrapping_add(k))] == slot);
        if is_busy {
            return Fill::Busy;
        }
        self.table[slot as usize] = entry;
        Fill::Filled
    }

    /// Whether there was room to stage the word.
    pub fn index(&mut self, word: u32) -> bool {
        if self.tail.wrapping_sub(self.seen_head) == self.size() {
            return false;
        }
        let cell = self.cell(self.tail);
        self.array[cell] = word;
        self.tail = self.tail.wrapping_add(1);
        true
    }

    pub fn store_tail(&mut self) -> u32 {
        self.published = self.tail;
        self.tail
    }

    pub fn load_head(&mut self) -> u32 {
        self.seen_head = self.head;
        self.head
    }

    pub fn in_call(&self) -> bool {
        self.call.is_some()
    }

    /// The length of a call of at most `count` positions.
    pub fn call_length(&self, count: u32) -> u32 {
        count.min(self.published.wrapping_sub(self.head))
    }

    pub fn begin(&mut self, count: u32) {
        self.call = Some(Call {
            count,
            taken: 0,
            accepted: 0,
            is_over: count == 0,
        });
    }

    pub fn take(&mut self) -> Take {
        let size = self.size();
        let Some(call) = &mut self.call else {
            return Take::NoCall;
        };
        if call.is_over {
            return Take::NoMore;
        }
        let cell = self.head.wrapping_add(call.taken) & (size - 1);
        call.taken += 1;
        call.is_over = call.taken == call.count;
        match self.table.get(self.array[cell as usize] as usize) {
            Some(entry) => {
                call.accepted += 1;
                call.is_over |= self.stops && entry.prepare().is_none();
                Take::Entry(*entry)
            }
            None => Take::Dropped,
        }
    }

    pub fn end(&mut self) -> End {
        let Some(call) = &self.call else {
            return End::NoCall;
        };
        if !call.is_over {
            return End::NotAll;
        }
        let accepted = call.accepted;
        self.head = self.head.wrapping_add(call.taken);
        self.dropped = self.dropped.wrapping_add(call.taken - accepted);
        self.call = None;
        End::Taken {
            accepted,
            dropped: self.dropped,
            head: self.head,
        }
    }
}
