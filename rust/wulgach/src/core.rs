use crate::answer::{Answer, Completion};
use crate::entry::Entry;
use crate::error::{made, Error};
use crate::ffi::{self, Place};
use crate::operation::{Operation, NO_OPERATION};
use crate::reading::{self, found, Counts};
use crate::setup::Setup;
use crate::step::Step;
use crate::why::{self, Why};
use std::cell::UnsafeCell;

/// A pair of rings and its requests, without files: how a running request ends comes from the caller.
///
/// It may be sent to another thread, and isn't `Sync`: see [the crate's page](crate#threads).
///
/// ```
/// use wulgach::{Answer, Core, Entry, Operation, Setup, Step};
///
/// # fn main() -> Result<(), wulgach::Error> {
/// let mut core = Core::new(&Setup::default())?;
/// core.step(Step::Fill { slot: 0, entry: Entry::read(7, 0, 1, 100, 3) })?;
/// core.step(Step::Index { word: 0 })?;
/// core.step(Step::StoreTail)?;
/// core.step(Step::Begin { count: 1 })?;
/// core.step(Step::Take)?;
/// core.step(Step::End)?;
/// assert_eq!(core.step(Step::Issue { number: 0 })?, Answer::Run);
/// assert_eq!(core.running_op(0), Some(Operation::Read { fd: 1, off: 100, len: 3 }));
///
/// let mut bytes = [0; 64];
/// bytes[..3].copy_from_slice(b"abc");
/// assert_eq!(core.finish(0, 3, bytes), Answer::Ended { res: 3, bytes });
/// assert_eq!(core.rest(0).map(|completion| completion.res), Some(3));
/// # Ok(())
/// # }
/// ```
#[derive(Debug)]
pub struct Core {
    place: UnsafeCell<Place>,
}

impl Core {
    /// A new core.
    ///
    /// ```
    /// use wulgach::{Core, Error, Setup};
    ///
    /// let too_many = Setup { sq: 4097, ..Setup::default() };
    /// assert_eq!(Core::new(&too_many).err(), Some(Error::BadSetup));
    /// ```
    ///
    /// # Errors
    ///
    /// `BadSetup` if the size of a ring is out of its range, and `NoMemory`.
    pub fn new(setup: &Setup) -> Result<Core, Error> {
        let mut place = Place::empty();
        // SAFETY: the place is empty, and the structs are those of the header.
        made(unsafe { ffi::wulgach_core_new(&mut place, &setup.words()) })?;
        Ok(Core {
            place: UnsafeCell::new(place),
        })
    }

    /// Makes one step, and returns its answer.
    ///
    /// # Errors
    ///
    /// `FinishOfCore` exactly for `Step::Finish`: nothing has changed.
    pub fn step(&mut self, step: Step) -> Result<Answer, Error> {
        let mut answer = ffi::Answer::ZERO;
        // SAFETY: the place is full from `new` on, and lent to this call alone.
        match unsafe { ffi::wulgach_core_step(self.place.get_mut(), &step.words(), &mut answer) } {
            0 => Ok(Answer::of(&answer)),
            _ => Err(Error::FinishOfCore),
        }
    }

    /// Makes all steps of a submission call of these entries at once, and returns the answer to its `End`. A refusal is an answer too, as of the step that would be refused: `Closed`, `InCall`, `NoSlot` (more entries than slots) or `Busy` (positions that were staged before wait for a call), and then no step was made; `Spent` or `Again`, and then all entries are published, and wait for another `Begin`.
    ///
    /// ```
    /// # use wulgach::{Answer, Core, Entry, Setup, Step};
    /// # fn main() -> Result<(), wulgach::Error> {
    /// let mut core = Core::new(&Setup::default())?;
    /// let entries = [Entry::nop(7, 0), Entry::nop(8, 0)];
    /// assert_eq!(core.submit(&entries)?, Answer::Taken { accepted: 2, dropped: 0, head: 2 });
    /// for number in 0..2 {
    ///     core.step(Step::Issue { number })?;
    ///     assert!(matches!(core.finish(number, 0, [0; 64]), Answer::Ended { .. }));
    /// }
    /// let completions = core.reap_all(16)?;
    /// assert_eq!(completions.iter().map(|c| c.user_data).collect::<Vec<_>>(), [7, 8]);
    /// # Ok(())
    /// # }
    /// ```
    ///
    /// # Errors
    ///
    /// `NoMemory` if there is none for a copy of the entries: nothing has changed.
    pub fn submit(&mut self, entries: &[Entry]) -> Result<Answer, Error> {
        let mut answer = ffi::Answer::ZERO;
        // SAFETY: as in `step`, and the library reads so many entries.
        match unsafe {
            ffi::wulgach_core_submit(
                self.place.get_mut(),
                entries.as_ptr(),
                entries.len(),
                &mut answer,
            )
        } {
            0 => Ok(Answer::of(&answer)),
            _ => Err(Error::NoMemory),
        }
    }

    /// Reaps the completions that the ring shows now, at most this many. Those that wait in the overflow list come into the ring by a `Flush`.
    ///
    /// # Errors
    ///
    /// `NoMemory` if there is none for a copy of as many: nothing has changed.
    pub fn reap_all(&mut self, most: usize) -> Result<Vec<Completion>, Error> {
        let mut completions = vec![reading::NO_COMPLETION; most];
        let mut count = 0;
        // SAFETY: as in `step`, and the library writes at most so many completions.
        match unsafe {
            ffi::wulgach_core_reap_all(
                self.place.get_mut(),
                completions.as_mut_ptr(),
                most,
                &mut count,
            )
        } {
            0 => Ok(completions[..count as usize]
                .iter()
                .map(reading::completion)
                .collect()),
            _ => Err(Error::NoMemory),
        }
    }

    /// Ends the running request of this number with any result and any bytes: `Ended` with these, or `NotRunning`.
    #[must_use]
    pub fn finish(&mut self, number: u64, res: i32, bytes: [u8; 64]) -> Answer {
        let mut answer = ffi::Answer::ZERO;
        // SAFETY: as in `step`.
        unsafe {
            ffi::wulgach_core_finish(
                self.place.get_mut(),
                number,
                res,
                &ffi::Bytes { bytes },
                &mut answer,
            )
        };
        Answer::of(&answer)
    }

    /// How far the core has come.
    #[must_use]
    pub fn counts(&self) -> Counts {
        let mut counts = reading::NO_COUNTS;
        // SAFETY: the place is full, no reference to it is handed out, and a core is used by one thread.
        unsafe { ffi::wulgach_core_counts(self.place.get(), &mut counts) };
        reading::counts(&counts)
    }

    /// The completion at this index among those posted and not reaped, the oldest first.
    #[must_use]
    pub fn rest(&self, index: u64) -> Option<Completion> {
        // SAFETY: as in `counts`.
        found(reading::NO_COMPLETION, |completion| unsafe {
            ffi::wulgach_core_rest(self.place.get(), index, completion)
        })
        .map(|completion| reading::completion(&completion))
    }

    /// The least outstanding request, which is the next to go on if nothing else can.
    #[must_use]
    pub fn least(&self) -> Option<u64> {
        // SAFETY: as in `counts`.
        found(0, |number| unsafe {
            ffi::wulgach_core_least(self.place.get(), number)
        })
    }

    /// What the request of this number asks for, if it is running.
    #[must_use]
    pub fn running_op(&self, number: u64) -> Option<Operation> {
        // SAFETY: as in `counts`.
        found(NO_OPERATION, |operation| unsafe {
            ffi::wulgach_core_running_op(self.place.get(), number, operation)
        })
        .map(|operation| Operation::of(&operation))
    }

    /// The least request from this number on, any number, that can be issued: that `Step::Issue` starts or ends. `None` exactly if there is none. It looks once at each 4,096 numbers that it passes.
    #[must_use]
    pub fn next_issuable(&self, from: u64) -> Option<u64> {
        // SAFETY: as in `counts`.
        found(0, |number| unsafe {
            ffi::wulgach_core_next_issuable(self.place.get(), from, number)
        })
    }

    /// The requests that can be issued, in the order of their numbers. Each is found when it is asked for.
    ///
    /// ```
    /// # use wulgach::{flags, Answer, Core, Entry, Setup, Step};
    /// # fn main() -> Result<(), wulgach::Error> {
    /// let mut core = Core::new(&Setup::default())?;
    /// for (slot, flags) in [(0, 0), (1, flags::IO_LINK), (2, 0), (3, 0)] {
    ///     core.step(Step::Fill { slot, entry: Entry::nop(7, flags) })?;
    ///     core.step(Step::Index { word: slot })?;
    /// }
    /// core.step(Step::StoreTail)?;
    /// core.step(Step::Begin { count: 4 })?;
    /// while core.step(Step::Take)? != Answer::NoMore {}
    /// core.step(Step::End)?;
    ///
    /// assert_eq!(core.issuable().collect::<Vec<_>>(), [0, 1, 3]);
    /// assert_eq!(core.issuable_count(), 3);
    /// let number = core.nth_issuable(1).unwrap();
    /// assert_eq!(core.step(Step::Issue { number })?, Answer::Run);
    /// assert_eq!(core.issuable().collect::<Vec<_>>(), [0, 3]);
    /// # Ok(())
    /// # }
    /// ```
    pub fn issuable(&self) -> impl Iterator<Item = u64> + '_ {
        let mut from = Some(0);
        std::iter::from_fn(move || {
            let number = self.next_issuable(from?)?;
            from = number.checked_add(1);
            Some(number)
        })
    }

    /// How many requests can be issued. By the manual pages' rules it looks once at each 64 numbers from the least outstanding one on, by Linux's at two members of each group at most.
    #[must_use]
    pub fn issuable_count(&self) -> u64 {
        let mut count = 0;
        // SAFETY: as in `counts`.
        unsafe { ffi::wulgach_core_issuable(self.place.get(), &mut count) };
        count
    }

    /// The request at this index, from 0, of those that can be issued, in the order of their numbers: `None` exactly past the last. So a random index below `issuable_count` chooses one that isn't refused. It looks at numbers as the count does, up to the one it finds.
    #[must_use]
    pub fn nth_issuable(&self, index: u64) -> Option<u64> {
        // SAFETY: as in `counts`.
        found(0, |number| unsafe {
            ffi::wulgach_core_nth_issuable(self.place.get(), index, number)
        })
    }

    /// Why the request of this number, any number, stands as it does.
    ///
    /// ```
    /// # use wulgach::{Core, Setup, Why};
    /// # fn main() -> Result<(), wulgach::Error> {
    /// assert_eq!(Core::new(&Setup::default())?.why(0), Why::NeverAccepted);
    /// # Ok(())
    /// # }
    /// ```
    #[must_use]
    pub fn why(&self, number: u64) -> Why {
        let mut words = why::NO_WHY;
        // SAFETY: as in `counts`.
        unsafe { ffi::wulgach_core_why(self.place.get(), number, &mut words) };
        why::why(&words)
    }
}

impl Drop for Core {
    fn drop(&mut self) {
        // SAFETY: the place is full, and isn't used again.
        unsafe { ffi::wulgach_core_free(self.place.get_mut()) };
    }
}
