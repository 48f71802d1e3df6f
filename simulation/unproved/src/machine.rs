//! The machine: both rings, the requests and the files, moved a step at a time.

use crate::completion::{CompletionRing, Cqe};
use crate::entry::{Op, Sqe};
use crate::files::{Files, Outcome};
use crate::requests::{Ending, Issued, Requests};
use crate::setup::Setup;
use crate::submission::{End, Fill, SubmissionRing, Take};

const MAX_ACCEPTED: u64 = i64::MAX as u64;

#[derive(Clone, Copy)]
pub enum Step {
    Fill { slot: u32, entry: Sqe },
    Index { word: u32 },
    StoreTail,
    LoadHead,
    Begin { count: u32 },
    Take,
    End,
    Issue { number: u64 },
    Finish { number: u64 },
    Flush,
    LoadCqTail,
    Reap,
    StoreCqHead,
    Close,
    Next,
}

#[derive(Clone, Copy)]
pub enum Answer {
    Filled,
    NoSlot,
    Busy,
    Staged,
    Full,
    Tail(u32),
    Head(u32),
    Call(u32),
    Closed,
    InCall,
    Spent,
    Entry(Sqe),
    Dropped,
    NoMore,
    NoCall,
    Taken {
        accepted: u32,
        dropped: u32,
        head: u32,
    },
    NotAll,
    Run,
    Ended {
        res: i32,
        bytes: [u8; 64],
    },
    NotReady,
    Running,
    Unknown,
    NotRunning,
    Moved(u64),
    Reaped(Cqe),
    Nothing,
    Shut,
    Next(u64),
}

/// A pair of rings, its requests and its files.
pub struct Machine {
    sq: SubmissionRing,
    cq: CompletionRing,
    requests: Requests,
    files: Files,
    /// The entries that the open call took.
    held: Vec<Sqe>,
    is_closed: bool,
}

impl Machine {
    pub fn new(setup: &Setup) -> Machine {
        Machine {
            sq: SubmissionRing::new(setup),
            cq: CompletionRing::new(setup),
            requests: Requests::default(),
            files: Files::new(setup.files),
            held: Vec::with_capacity(setup.sq as usize),
            is_closed: false,
        }
    }

    /// How many requests were accepted.
    pub fn accepted(&self) -> u64 {
        self.requests.accepted()
    }

    pub fn step(&mut self, step: &Step) -> Answer {
        match *step {
            Step::Fill { slot, entry } => match self.sq.fill(slot, entry) {
                Fill::Filled => Answer::Filled,
                Fill::NoSlot => Answer::NoSlot,
                Fill::Busy => Answer::Busy,
            },
            Step::Index { word } if self.sq.index(word) => Answer::Staged,
            Step::Index { .. } => Answer::Full,
            Step::StoreTail => Answer::Tail(self.sq.store_tail()),
            Step::LoadHead => Answer::Head(self.sq.load_head()),
            Step::Begin { count } => self.begin(count),
            Step::Take => self.take(),
            Step::End => self.end(),
            Step::Issue { number } => self.issue(number),
            Step::Finish { number } => self.finish(number),
            Step::Flush => Answer::Moved(self.cq.flush()),
            Step::LoadCqTail => Answer::Tail(self.cq.load_tail()),
            Step::Reap => self.cq.reap().map_or(Answer::Nothing, Answer::Reaped),
            Step::StoreCqHead => Answer::Head(self.cq.store_head()),
            Step::Close => self.close(),
            Step::Next => self.requests.next().map_or(Answer::Nothing, Answer::Next),
        }
    }

    fn begin(&mut self, count: u32) -> Answer {
        if self.is_closed {
            return Answer::Closed;
        }
        if self.sq.in_call() {
            return Answer::InCall;
        }
        let count = self.sq.call_length(count);
        if u64::from(count) > MAX_ACCEPTED - self.requests.accepted() {
            return Answer::Spent;
        }
        self.sq.begin(count);
        Answer::Call(count)
    }

    fn take(&mut self) -> Answer {
        match self.sq.take() {
            Take::Entry(entry) => {
                self.held.push(entry);
                Answer::Entry(entry)
            }
            Take::Dropped => Answer::Dropped,
            Take::NoMore => Answer::NoMore,
            Take::NoCall => Answer::NoCall,
        }
    }

    fn end(&mut self) -> Answer {
        match self.sq.end() {
            End::Taken {
                accepted,
                dropped,
                head,
            } => {
                self.requests.accept(&self.held);
                self.held.clear();
                Answer::Taken {
                    accepted,
                    dropped,
                    head,
                }
            }
            End::NoCall => Answer::NoCall,
            End::NotAll => Answer::NotAll,
        }
    }

    fn issue(&mut self, number: u64) -> Answer {
        match self.requests.issue(number) {
            Issued::Run => Answer::Run,
            Issued::Ended(ending) => self.tell(ending, [0; 64]),
            Issued::NotReady => Answer::NotReady,
            Issued::Running => Answer::Running,
            Issued::Unknown => Answer::Unknown,
        }
    }

    fn finish(&mut self, number: u64) -> Answer {
        let outcome = match self.requests.running_op(number) {
            Some(Op::File(op)) => self.files.apply(op),
            Some(_) => Outcome::of(0),
            None => return Answer::NotRunning,
        };
        let ending = self.requests.end(number, outcome.res);
        self.tell(ending, outcome.bytes)
    }

    /// Posts the completion of an end, unless it is skipped.
    fn tell(&mut self, ending: Ending, bytes: [u8; 64]) -> Answer {
        let Ending {
            user_data,
            res,
            is_told,
        } = ending;
        if is_told {
            self.cq.post(Cqe {
                user_data,
                res,
                payload: bytes,
            });
        }
        Answer::Ended { res, bytes }
    }

    fn close(&mut self) -> Answer {
        if self.sq.in_call() {
            return Answer::InCall;
        }
        self.is_closed = true;
        Answer::Shut
    }
}

/// Makes these steps in order, and gives their answers.
pub fn run(machine: &mut Machine, steps: &[Step]) -> Vec<Answer> {
    steps.iter().map(|step| machine.step(step)).collect()
}
