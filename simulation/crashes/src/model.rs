//! What a crash may leave of a file, as docs/CRASHES.md says it in words: by the times at which writes and syncs were issued and ended, and by trying all lists of writes. It shares no code with the volume.

use std::collections::BTreeMap;

/// A write, with the times at which it was issued and ended.
#[derive(Clone, Debug)]
pub struct Write {
    pub number: u64,
    pub off: u64,
    pub bytes: Vec<u8>,
    pub issued: u64,
    pub ended: Option<(u64, End)>,
}

/// How a write or a sync has ended.
#[derive(Clone, Copy, Debug, PartialEq)]
pub enum End {
    Success,
    Failure,
}

/// A sync of some bytes, up to `u64::MAX` if of the whole file, with the times at which it was issued and ended.
#[derive(Clone, Debug)]
pub struct Sync {
    pub number: u64,
    pub from: u64,
    pub to: u64,
    pub issued: u64,
    pub ended: Option<(u64, End)>,
}

/// A file with all that happened to it.
#[derive(Clone, Debug)]
pub struct File {
    pub unit: u64,
    pub first: Vec<u8>,
    pub writes: Vec<Write>,
    pub syncs: Vec<Sync>,
    pub now: u64,
    pub next: u64,
}

/// A list of writes that may be left of a place, by their numbers.
pub type Order = Vec<u64>;

impl Write {
    fn end(&self) -> u64 {
        self.off + self.bytes.len() as u64
    }

    /// The byte that it writes at an offset.
    fn byte(&self, at: u64) -> Option<u8> {
        self.bytes
            .get(usize::try_from(at.checked_sub(self.off)?).ok()?)
            .copied()
    }

    /// It had ended, or failed, when something was issued.
    fn was_done(&self, issued: u64) -> bool {
        self.ended.is_some_and(|(ended, _)| ended < issued)
    }

    /// It had ended with success when something was issued.
    fn had_ended(&self, issued: u64) -> bool {
        self.was_done(issued) && self.is_read()
    }

    /// It has ended with success.
    fn is_read(&self) -> bool {
        matches!(self.ended, Some((_, End::Success)))
    }
}

impl Sync {
    /// A sync covers a write that had ended when the sync was issued, and lies in its range whole.
    fn covers(&self, write: &Write) -> bool {
        write.had_ended(self.issued) && self.from <= write.off && write.end() <= self.to
    }

    /// A sync of the whole file reaches each write that had ended when it was issued, and one of a range those that have a byte in it.
    fn reaches(&self, write: &Write) -> bool {
        let is_whole = self.to == u64::MAX;
        let mut offsets = write.off..write.end();
        write.had_ended(self.issued)
            && (is_whole || offsets.any(|at| self.from <= at && at < self.to))
    }
}

impl File {
    pub fn new(unit: u64, first: &[u8]) -> File {
        File {
            unit,
            first: first.to_vec(),
            writes: Vec::new(),
            syncs: Vec::new(),
            now: 0,
            next: 1,
        }
    }

    /// The time of the next event.
    fn tick(&mut self) -> u64 {
        self.now += 1;
        self.now
    }

    fn number(&mut self) -> u64 {
        self.next += 1;
        self.next - 1
    }

    pub fn begin_write(&mut self, off: u64, bytes: Vec<u8>) -> u64 {
        let (number, issued) = (self.number(), self.tick());
        self.writes.push(Write {
            number,
            off,
            bytes,
            issued,
            ended: None,
        });
        number
    }

    pub fn begin_sync(&mut self, from: u64, to: u64) -> u64 {
        let (number, issued) = (self.number(), self.tick());
        self.syncs.push(Sync {
            number,
            from,
            to,
            issued,
            ended: None,
        });
        number
    }

    pub fn end_write(&mut self, number: u64, end: End) -> bool {
        let now = self.tick();
        let running = self
            .writes
            .iter_mut()
            .find(|w| w.number == number && w.ended.is_none());
        running.map(|w| w.ended = Some((now, end))).is_some()
    }

    pub fn end_sync(&mut self, number: u64, end: End) -> bool {
        let now = self.tick();
        let running = self
            .syncs
            .iter_mut()
            .find(|s| s.number == number && s.ended.is_none());
        running.map(|s| s.ended = Some((now, end))).is_some()
    }

    fn write(&self, number: u64) -> Option<&Write> {
        self.writes.iter().find(|w| w.number == number)
    }

    /// A write is safe if a sync that covers it has ended with success, and none that reaches it had failed by then.
    pub fn is_safe(&self, write: &Write) -> bool {
        self.syncs.iter().any(|sync| match sync.ended {
            Some((at, End::Success)) => {
                sync.covers(write)
                    && !self.syncs.iter().any(|other| {
                        matches!(other.ended, Some((failed, End::Failure)) if failed < at)
                            && other.reaches(write)
                    })
            }
            _ => false,
        })
    }

    /// What a read shows: the writes that have ended with success, in the order of their ends.
    pub fn contents(&self) -> Vec<u8> {
        let mut ended: Vec<&Write> = self.writes.iter().filter(|w| w.is_read()).collect();
        ended.sort_by_key(|w| w.ended.map(|(at, _)| at));
        let order: Order = ended.iter().map(|w| w.number).collect();
        let len = self.length(&order);
        (0..len).map(|at| self.byte(&order, at)).collect()
    }

    /// The length that a list of writes makes of the first.
    fn length(&self, order: &Order) -> u64 {
        let ends = order.iter().filter_map(|n| self.write(*n));
        ends.filter(|w| !w.bytes.is_empty())
            .map(Write::end)
            .fold(self.first.len() as u64, u64::max)
    }

    /// The byte that a list of writes makes of the first one at an offset.
    fn byte(&self, order: &Order, at: u64) -> u8 {
        let first = self.first.get(at as usize).copied().unwrap_or(0);
        let last = order.iter().rev().find_map(|n| self.write(*n)?.byte(at));
        last.unwrap_or(first)
    }

    /// The writes that touch a unit.
    fn touching(&self, unit: u64) -> Vec<&Write> {
        let (from, to) = (unit * self.unit, (unit + 1) * self.unit);
        self.writes
            .iter()
            .filter(|w| (w.off..w.end()).any(|at| from <= at && at < to))
            .collect()
    }

    /// Whether this list may be left of these writes: each safe one is in it, with a write each that had ended before it, and what had ended or failed before it comes before it.
    fn may_be_left(&self, writes: &[&Write], order: &[&Write]) -> bool {
        let place = |write: &Write| order.iter().position(|w| w.number == write.number);
        writes
            .iter()
            .all(|w| place(w).is_some() || !self.is_safe(w))
            && order.iter().enumerate().all(|(at, w)| {
                writes
                    .iter()
                    .filter(|m| m.was_done(w.issued))
                    .all(|m| place(m).map_or(!m.had_ended(w.issued), |its| its < at))
            })
    }

    /// All lists that may be left of these writes.
    fn orders<'a>(&self, writes: &[&'a Write]) -> Vec<Order> {
        let mut all = Vec::new();
        let mut lists: Vec<Vec<&'a Write>> = vec![Vec::new()];
        while let Some(list) = lists.pop() {
            if self.may_be_left(writes, &list) {
                all.push(list.iter().map(|w| w.number).collect());
            }
            for write in writes {
                if !list.iter().any(|w| w.number == write.number) {
                    lists.push(list.iter().copied().chain([*write]).collect());
                }
            }
        }
        all
    }

    /// All lengths that may be left, each with a list that makes it.
    fn lengths(&self) -> BTreeMap<u64, Order> {
        let all: Vec<&Write> = self.writes.iter().collect();
        let orders = self.orders(&all);
        orders
            .into_iter()
            .map(|order| (self.length(&order), order))
            .collect()
    }

    /// All contents of a unit up to a length, each with a list that makes it.
    fn units(&self, unit: u64, len: u64) -> BTreeMap<Vec<u8>, Order> {
        let (from, to) = (unit * self.unit, len.min((unit + 1) * self.unit));
        let orders = self.orders(&self.touching(unit));
        let shown = |order: &Order| (from..to).map(|at| self.byte(order, at)).collect();
        orders
            .into_iter()
            .map(|order| (shown(&order), order))
            .collect()
    }

    /// All images that a crash may leave, each with a choice that leaves it; `None` if there are more than `most`.
    pub fn images(&self, most: usize) -> Option<BTreeMap<Vec<u8>, Vec<u64>>> {
        let mut all = BTreeMap::new();
        for (len, whole) in self.lengths() {
            let mut made = vec![(Vec::new(), whole)];
            for unit in 0..len.div_ceil(self.unit) {
                let contents = self.units(unit, len);
                if made.len() * contents.len() > most {
                    return None;
                }
                made = made
                    .iter()
                    .flat_map(|(bytes, choice)| {
                        contents.iter().map(move |(more, order)| {
                            (
                                [bytes.as_slice(), more].concat(),
                                [choice.as_slice(), &[0], order].concat(),
                            )
                        })
                    })
                    .collect();
            }
            all.extend(made);
        }
        Some(all)
    }

    /// Whether each image has these bytes at an offset, length by length and byte by byte.
    pub fn holds(&self, off: u64, bytes: &[u8]) -> bool {
        let reaches = |len: &u64| off + bytes.len() as u64 <= *len;
        self.lengths().keys().all(reaches)
            && bytes.iter().zip(off..).all(|(wanted, at)| {
                let orders = self.orders(&self.touching(at / self.unit));
                orders.iter().all(|order| self.byte(order, at) == *wanted)
            })
    }

    /// The writes that a part of a choice leaves of these: those that it names one after the other, without the numbers that name none that may come next, and without what had failed before one that was named; then, of those that are still there, the ones up to the last safe one, in the order of their issue.
    fn chosen(&self, writes: &[&Write], part: &[u64]) -> Order {
        let mut rest = writes.to_vec();
        let mut order = Order::new();
        for number in part {
            if let Some(at) = rest.iter().position(|w| w.number == *number) {
                if !rest.iter().any(|m| m.had_ended(rest[at].issued)) {
                    let taken = rest.remove(at);
                    order.push(taken.number);
                    rest.retain(|m| !m.was_done(taken.issued));
                }
            }
        }
        let safe = rest.iter().rposition(|w| self.is_safe(w));
        order.extend(rest[..safe.map_or(0, |at| at + 1)].iter().map(|w| w.number));
        order
    }

    /// What a choice leaves: its parts are ended by zeros, the first is for the length, and each later one for a unit.
    pub fn crash(&self, choice: &[u64]) -> Vec<u8> {
        let mut parts = choice.split(|number| *number == 0);
        let all: Vec<&Write> = self.writes.iter().collect();
        let len = self.length(&self.chosen(&all, parts.next().unwrap_or(&[])));
        let mut bytes = Vec::new();
        for unit in 0..len.div_ceil(self.unit) {
            let order = self.chosen(&self.touching(unit), parts.next().unwrap_or(&[]));
            let to = len.min((unit + 1) * self.unit);
            bytes.extend((unit * self.unit..to).map(|at| self.byte(&order, at)));
        }
        bytes
    }
}
