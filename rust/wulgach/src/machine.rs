use crate::answer::{Answer, Completion};
use crate::error::{made, Error};
use crate::ffi::{self, Place};
use crate::operation::{Operation, NO_OPERATION};
use crate::reading::{self, found, Counts, FileState};
use crate::setup::Setup;
use crate::step::Step;
use crate::why::{self, Why};
use std::cell::UnsafeCell;

/// A pair of rings, its requests and up to 64 files in memory, of at most 65,536 bytes each.
///
/// It may be sent to another thread, and isn't `Sync`: see [the crate's page](crate#threads).
///
/// ```
/// use wulgach::{flags, Answer, Entry, Machine, Setup, Step};
///
/// # fn main() -> Result<(), wulgach::Error> {
/// let mut machine = Machine::new(&Setup::default())?;
/// let chain = [Entry::write(1, flags::IO_LINK, 0, 0, b"hello"), Entry::fsync(2, 0, 0)];
/// for (slot, entry) in (0..).zip(chain) {
///     machine.step(Step::Fill { slot, entry })?;
///     machine.step(Step::Index { word: slot })?;
/// }
/// machine.step(Step::StoreTail)?;
/// machine.step(Step::Begin { count: 2 })?;
/// machine.step(Step::Take)?;
/// machine.step(Step::Take)?;
/// assert_eq!(machine.step(Step::End)?, Answer::Taken { accepted: 2, dropped: 0, head: 2 });
///
/// assert_eq!(machine.step(Step::Issue { number: 1 })?, Answer::NotReady);
/// while let Answer::Next(number) = machine.step(Step::Next)? {
///     machine.step(Step::Issue { number })?;
///     machine.step(Step::Finish { number })?;
/// }
/// assert_eq!(machine.byte(0, 4), Some(b'o'));
/// assert_eq!(machine.state(0).map(|file| file.synced), Some(1));
/// # Ok(())
/// # }
/// ```
#[derive(Debug)]
pub struct Machine {
    place: UnsafeCell<Place>,
}

impl Machine {
    /// A new machine, its files empty.
    ///
    /// # Errors
    ///
    /// `BadSetup` if a number of the set-up is out of its range, as `Setup::fault` says, and `NoMemory`.
    pub fn new(setup: &Setup) -> Result<Machine, Error> {
        let mut place = Place::empty();
        // SAFETY: the place is empty, and the structs are those of the header.
        made(unsafe { ffi::wulgach_machine_new(&mut place, &setup.words()) })?;
        Ok(Machine {
            place: UnsafeCell::new(place),
        })
    }

    /// Makes one step, and returns its answer.
    ///
    /// # Errors
    ///
    /// None: the form is that of each `step` here.
    pub fn step(&mut self, step: Step) -> Result<Answer, Error> {
        let mut answer = ffi::Answer::ZERO;
        // SAFETY: the place is full from `new` on, and lent to this call alone.
        unsafe { ffi::wulgach_machine_step(self.place.get_mut(), &step.words(), &mut answer) };
        Ok(Answer::of(&answer))
    }

    /// How far the machine has come.
    #[must_use]
    pub fn counts(&self) -> Counts {
        let mut counts = reading::NO_COUNTS;
        // SAFETY: the place is full, no reference to it is handed out, and a machine is used by one thread.
        unsafe { ffi::wulgach_machine_counts(self.place.get(), &mut counts) };
        reading::counts(&counts)
    }

    /// The completion at this index among those posted and not reaped, the oldest first.
    #[must_use]
    pub fn rest(&self, index: u64) -> Option<Completion> {
        // SAFETY: as in `counts`.
        found(reading::NO_COMPLETION, |completion| unsafe {
            ffi::wulgach_machine_rest(self.place.get(), index, completion)
        })
        .map(|completion| reading::completion(&completion))
    }

    /// The least outstanding request, which is the next to go on if nothing else can.
    #[must_use]
    pub fn least(&self) -> Option<u64> {
        // SAFETY: as in `counts`.
        found(0, |number| unsafe {
            ffi::wulgach_machine_least(self.place.get(), number)
        })
    }

    /// What the request of this number asks for, if it is running.
    #[must_use]
    pub fn running_op(&self, number: u64) -> Option<Operation> {
        // SAFETY: as in `counts`.
        found(NO_OPERATION, |operation| unsafe {
            ffi::wulgach_machine_running_op(self.place.get(), number, operation)
        })
        .map(|operation| Operation::of(&operation))
    }

    /// The least request from this number on, any number, that can be issued: that `Step::Issue` starts or ends. `None` exactly if there is none. It looks once at each 4,096 numbers that it passes.
    #[must_use]
    pub fn next_issuable(&self, from: u64) -> Option<u64> {
        // SAFETY: as in `counts`.
        found(0, |number| unsafe {
            ffi::wulgach_machine_next_issuable(self.place.get(), from, number)
        })
    }

    /// The requests that can be issued, in the order of their numbers. Each is found when it is asked for.
    ///
    /// ```
    /// # use wulgach::{flags, Answer, Machine, Entry, Setup, Step};
    /// # fn main() -> Result<(), wulgach::Error> {
    /// let mut machine = Machine::new(&Setup::default())?;
    /// for (slot, flags) in [(0, 0), (1, flags::IO_LINK), (2, 0), (3, 0)] {
    ///     machine.step(Step::Fill { slot, entry: Entry::nop(7, flags) })?;
    ///     machine.step(Step::Index { word: slot })?;
    /// }
    /// machine.step(Step::StoreTail)?;
    /// machine.step(Step::Begin { count: 4 })?;
    /// while machine.step(Step::Take)? != Answer::NoMore {}
    /// machine.step(Step::End)?;
    ///
    /// assert_eq!(machine.issuable().collect::<Vec<_>>(), [0, 1, 3]);
    /// assert_eq!(machine.issuable_count(), 3);
    /// let number = machine.nth_issuable(1).unwrap();
    /// assert_eq!(machine.step(Step::Issue { number })?, Answer::Run);
    /// assert_eq!(machine.issuable().collect::<Vec<_>>(), [0, 3]);
    /// # Ok(())
    /// # }
    /// ```
    pub fn issuable(&self) -> impl Iterator<Item = u64> + '_ {
        let mut from = Some(0);
        std::iter::from_fn(move || {
            let number = self.next_issuable(from?)?;
            from = number.checked_add(1);
            Some(number)
        })
    }

    /// How many requests can be issued. By the manual pages' rules it looks once at each 64 numbers from the least outstanding one on, by Linux's at two members of each group at most.
    #[must_use]
    pub fn issuable_count(&self) -> u64 {
        let mut count = 0;
        // SAFETY: as in `counts`.
        unsafe { ffi::wulgach_machine_issuable(self.place.get(), &mut count) };
        count
    }

    /// The request at this index, from 0, of those that can be issued, in the order of their numbers: `None` exactly past the last. So a random index below `issuable_count` chooses one that isn't refused. It looks at numbers as the count does, up to the one it finds.
    #[must_use]
    pub fn nth_issuable(&self, index: u64) -> Option<u64> {
        // SAFETY: as in `counts`.
        found(0, |number| unsafe {
            ffi::wulgach_machine_nth_issuable(self.place.get(), index, number)
        })
    }

    /// Why the request of this number, any number, stands as it does.
    ///
    /// ```
    /// # use wulgach::{Machine, Setup, Why};
    /// # fn main() -> Result<(), wulgach::Error> {
    /// assert_eq!(Machine::new(&Setup::default())?.why(0), Why::NeverAccepted);
    /// # Ok(())
    /// # }
    /// ```
    #[must_use]
    pub fn why(&self, number: u64) -> Why {
        let mut words = why::NO_WHY;
        // SAFETY: as in `counts`.
        unsafe { ffi::wulgach_machine_why(self.place.get(), number, &mut words) };
        why::why(&words)
    }

    /// How the file of a descriptor stands.
    #[must_use]
    pub fn state(&self, fd: i32) -> Option<FileState> {
        // SAFETY: as in `counts`.
        found(reading::NO_FILE, |file| unsafe {
            ffi::wulgach_machine_state(self.place.get(), fd, file)
        })
        .map(|file| reading::file(&file))
    }

    /// The byte at an offset of the file of a descriptor.
    #[must_use]
    pub fn byte(&self, fd: i32, at: u64) -> Option<u8> {
        // SAFETY: as in `counts`.
        found(0, |byte| unsafe {
            ffi::wulgach_machine_byte(self.place.get(), fd, at, byte)
        })
    }
}

impl Drop for Machine {
    fn drop(&mut self) {
        // SAFETY: the place is full, and isn't used again.
        unsafe { ffi::wulgach_machine_free(self.place.get_mut()) };
    }
}
