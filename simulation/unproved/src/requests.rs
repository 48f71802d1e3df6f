//! The requests that are outstanding: which may start, what an end does to others, and whom a cancel finds.

use crate::entry::{flags, Op, Sqe};
use crate::errno;
use std::collections::VecDeque;

#[derive(Clone, Copy, PartialEq)]
enum State {
    Waiting,
    Running,
}

struct Request {
    user_data: u64,
    flags: u8,
    /// `None` where the entry has a fault.
    op: Option<Op>,
    group: u64,
    is_cancelled: bool,
    state: State,
}

/// Members of one chain: consecutive numbers.
struct Group {
    /// The least member that hasn't ended, or `end`.
    least: u64,
    end: u64,
    has_fault: bool,
    drains: bool,
    /// The least soft member that failed.
    broken_at: Option<u64>,
}

/// What an end says to the application.
pub struct Ending {
    pub user_data: u64,
    pub res: i32,
    pub is_told: bool,
}

pub enum Issued {
    Run,
    Ended(Ending),
    NotReady,
    Running,
    Unknown,
}

/// The outstanding requests and their groups, each in a window that begins with the least outstanding one.
#[derive(Default)]
pub struct Requests {
    first: u64,
    /// `None` is a request that has ended.
    window: VecDeque<Option<Request>>,
    first_group: u64,
    groups: VecDeque<Group>,
    /// The draining groups among them, in order.
    draining: VecDeque<u64>,
}

impl Requests {
    pub fn accepted(&self) -> u64 {
        self.first + self.window.len() as u64
    }

    /// Accepts the entries of a call, cut into groups.
    pub fn accept(&mut self, call: &[Sqe]) {
        for members in call.chunk_by(|before, _| before.is_linked()) {
            self.accept_group(members);
        }
    }

    fn accept_group(&mut self, members: &[Sqe]) {
        let group = self.first_group + self.groups.len() as u64;
        let least = self.accepted();
        for entry in members {
            self.window.push_back(Some(Request {
                user_data: entry.user_data,
                flags: entry.flags,
                op: entry.prepare(),
                group,
                is_cancelled: false,
                state: State::Waiting,
            }));
        }
        let drains = members.iter().any(|entry| entry.has(flags::IO_DRAIN));
        if drains {
            self.draining.push_back(group);
        }
        self.groups.push_back(Group {
            least,
            end: self.accepted(),
            has_fault: members.iter().any(|entry| entry.prepare().is_none()),
            drains,
            broken_at: None,
        });
    }

    pub fn issue(&mut self, n: u64) -> Issued {
        let Some(request) = self.get(n) else {
            return Issued::Unknown;
        };
        if request.state == State::Running {
            return Issued::Running;
        }
        let Some(op) = request.op else {
            return Issued::Ended(self.end(n, -errno::EINVAL));
        };
        if self.is_doomed(n, request) {
            return Issued::Ended(self.end(n, -errno::ECANCELED));
        }
        if !self.is_ready(n, request) {
            return Issued::NotReady;
        }
        if let Op::Cancel { target, is_of_all } = op {
            let res = if is_of_all {
                self.cancel_all(n, target)
            } else {
                self.cancel(n, target)
            };
            return Issued::Ended(self.end(n, res));
        }
        self.get_mut(n).unwrap().state = State::Running;
        Issued::Run
    }

    /// The operation of a request, where it is running.
    pub fn running_op(&self, n: u64) -> Option<&Op> {
        let request = self.get(n)?;
        request
            .op
            .as_ref()
            .filter(|_| request.state == State::Running)
    }

    /// Ends an outstanding request.
    pub fn end(&mut self, n: u64, res: i32) -> Ending {
        let place = self.place(n).unwrap();
        let request = self.window[place].take().unwrap();
        let succeeded = request.op.is_some_and(|op| op.succeeded(res));
        let group = &mut self.groups[(request.group - self.first_group) as usize];
        let is_soft = request.flags & (flags::IO_LINK | flags::IO_HARDLINK) == flags::IO_LINK;
        if is_soft && !succeeded {
            group.broken_at = Some(group.broken_at.map_or(n, |m| m.min(n)));
        }
        while group.least < group.end && self.window[(group.least - self.first) as usize].is_none()
        {
            group.least += 1;
        }
        self.let_go();
        Ending {
            user_data: request.user_data,
            res,
            is_told: !(succeeded && request.flags & flags::CQE_SKIP_SUCCESS != 0),
        }
    }

    /// The least request that `issue` doesn't refuse.
    pub fn next(&self) -> Option<u64> {
        self.outstanding()
            .find(|&(n, request)| {
                request.state == State::Waiting
                    && (self.is_doomed(n, request) || self.is_ready(n, request))
            })
            .map(|(n, _)| n)
    }

    /// Carries out the cancel `n`, and gives its result.
    fn cancel(&mut self, n: u64, target: u64) -> i32 {
        let found = self.outstanding().find(|&(m, request)| {
            m != n && request.user_data == target && !self.is_doomed(m, request)
        });
        match found {
            None => -errno::ENOENT,
            Some((_, request)) if request.state == State::Running => -errno::EALREADY,
            Some((m, _)) => {
                self.get_mut(m).unwrap().is_cancelled = true;
                0
            }
        }
    }

    /// Carries out the cancel `n` of all, and gives its result: how many it cancelled.
    fn cancel_all(&mut self, n: u64, target: u64) -> i32 {
        let is_target = |m: u64, request: &Request| {
            m != n
                && request.user_data == target
                && request.state == State::Waiting
                && !self.is_doomed(m, request)
        };
        let targets: Vec<u64> = self
            .outstanding()
            .filter(|&(m, request)| is_target(m, request))
            .map(|(m, _)| m)
            .collect();
        for m in &targets {
            self.get_mut(*m).unwrap().is_cancelled = true;
        }
        i32::try_from(targets.len()).unwrap_or(i32::MAX)
    }

    fn is_doomed(&self, n: u64, request: &Request) -> bool {
        let group = self.group(request.group);
        request.is_cancelled || group.has_fault || group.broken_at.is_some_and(|m| m < n)
    }

    fn is_ready(&self, n: u64, request: &Request) -> bool {
        let group = self.group(request.group);
        let is_held = self
            .draining
            .front()
            .is_some_and(|drain| *drain < request.group);
        let may_drain = !group.drains || request.group == self.first_group;
        group.least == n && !is_held && may_drain
    }

    /// Forgets what stands before the least outstanding request.
    fn let_go(&mut self) {
        while let Some(None) = self.window.front() {
            self.window.pop_front();
            self.first += 1;
        }
        while self.groups.front().is_some_and(Group::is_over) {
            self.groups.pop_front();
            self.first_group += 1;
        }
        while self
            .draining
            .front()
            .is_some_and(|drain| self.is_over(*drain))
        {
            self.draining.pop_front();
        }
    }

    fn is_over(&self, group: u64) -> bool {
        group < self.first_group || self.group(group).is_over()
    }

    fn group(&self, group: u64) -> &Group {
        &self.groups[(group - self.first_group) as usize]
    }

    fn outstanding(&self) -> impl Iterator<Item = (u64, &Request)> {
        (self.first..)
            .zip(&self.window)
            .filter_map(|(n, request)| Some((n, request.as_ref()?)))
    }

    fn place(&self, n: u64) -> Option<usize> {
        usize::try_from(n.checked_sub(self.first)?).ok()
    }

    fn get(&self, n: u64) -> Option<&Request> {
        self.window.get(self.place(n)?)?.as_ref()
    }

    fn get_mut(&mut self, n: u64) -> Option<&mut Request> {
        let place = self.place(n)?;
        self.window.get_mut(place)?.as_mut()
    }
}

impl Group {
    fn is_over(&self) -> bool {
        self.least == self.end
    }
}
