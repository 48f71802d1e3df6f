use crate::answer::Completion;
use crate::entry::Entry;
use crate::error::Error;
use crate::ffi::{self, Place};
use crate::reading::{self, FileState};
use crate::setup::Setup;
use std::cell::UnsafeCell;

/// Everything that calls may come to on empty files: each outcome once. What is here may come, by some order of steps that the rules allow; if it is all, nothing else may.
///
/// Which orders of a write of data, of a commit record and an fsync may be seen? The fsync drains, so it covers both in each order, and the commit record may be there before its data:
///
/// ```
/// use wulgach::{flags, Entry, Error, Outcomes, Setup};
///
/// fn orders(link: u8) -> Result<Vec<Vec<u64>>, Error> {
///     let call = [
///         Entry::write(1, link, 0, 0, b"a"),
///         Entry::write(2, 0, 0, 1, b"\xff"),
///         Entry::fsync(3, flags::IO_DRAIN, 0),
///     ];
///     let outcomes = Outcomes::new(&Setup::default(), &[call], u64::MAX)?;
///     assert!(outcomes.is_all());
///     let mut orders = Vec::new();
///     for outcome in &outcomes {
///         assert_eq!(outcome.files[0].bytes, b"a\xff");
///         assert_eq!(outcome.files[0].state.synced, 2);
///         orders.push(outcome.completions.iter().map(|completion| completion.user_data).collect());
///     }
///     orders.sort();
///     Ok(orders)
/// }
///
/// # fn main() -> Result<(), Error> {
/// assert_eq!(orders(0)?, [[1, 2, 3], [2, 1, 3]]);
/// assert_eq!(orders(flags::IO_LINK)?, [[1, 2, 3]]);
/// # Ok(())
/// # }
/// ```
///
/// They may be sent to another thread, and aren't `Sync`: see [the crate's page](crate#threads).
#[derive(Debug)]
pub struct Outcomes {
    place: UnsafeCell<Place>,
    files: u32,
    count: u64,
    is_all: bool,
}

/// What calls came to, once all were made and no request is outstanding. Nothing is dropped, since each position has an entry.
#[derive(Clone, Debug, PartialEq, Eq)]
pub struct Outcome {
    /// The completions, in the order in which they are posted.
    pub completions: Vec<Completion>,
    /// The files that are left, by their descriptors.
    pub files: Vec<OutcomeFile>,
}

/// A file that calls left.
#[derive(Clone, Debug, PartialEq, Eq)]
pub struct OutcomeFile {
    /// How it stands.
    pub state: FileState,
    /// Its bytes.
    pub bytes: Vec<u8>,
}

impl Outcomes {
    /// The outcomes of these calls, each with its entries. The walk that finds them ends after `most` paths: then `is_all` is false, and there may be more.
    ///
    /// ```
    /// use wulgach::{Entry, Error, Outcomes, Setup};
    ///
    /// # fn main() -> Result<(), Error> {
    /// let call: Vec<Entry> = (0..4).map(|n| Entry::nop(n, 0)).collect();
    /// let all = Outcomes::new(&Setup::default(), &[&call], u64::MAX)?;
    /// assert!(all.is_all() && all.len() == 24);
    /// let some = Outcomes::new(&Setup::default(), &[&call], 20)?;
    /// assert!(!some.is_all() && some.len() < 24);
    /// let small = Setup { sq: 2, ..Setup::default() };
    /// assert_eq!(Outcomes::new(&small, &[&call], u64::MAX).err(), Some(Error::NotTakenWhole));
    /// # Ok(())
    /// # }
    /// ```
    ///
    /// # Errors
    ///
    /// `BadSetup`, `NotTakenWhole` if the ring doesn't take each call whole, and `NoMemory`.
    pub fn new<C: AsRef<[Entry]>>(
        setup: &Setup,
        calls: &[C],
        most: u64,
    ) -> Result<Outcomes, Error> {
        let entries: Vec<Entry> = calls.iter().flat_map(|c| c.as_ref()).copied().collect();
        let lens: Vec<u64> = calls.iter().map(|c| c.as_ref().len() as u64).collect();
        let (mut place, mut count, mut is_all) = (Place::empty(), 0, false);
        // SAFETY: the place is empty, the structs are those of the header, and the pointers are those of slices of these lengths.
        let result = unsafe {
            ffi::wulgach_outcomes_new(
                &mut place,
                &setup.words(),
                entries.as_ptr(),
                entries.len(),
                lens.as_ptr(),
                lens.len(),
                most,
                &mut is_all,
            )
        };
        match result {
            0 => {}
            -22 if setup.fault().is_some() => return Err(Error::BadSetup),
            -22 => return Err(Error::NotTakenWhole),
            _ => return Err(Error::NoMemory),
        }
        // SAFETY: the place is full.
        unsafe { ffi::wulgach_outcomes_count(&mut place, &mut count, &mut is_all) };
        Ok(Outcomes {
            place: UnsafeCell::new(place),
            files: setup.files,
            count,
            is_all,
        })
    }

    /// How many there are: all, or a lower bound.
    #[must_use]
    pub fn len(&self) -> u64 {
        self.count
    }

    /// Whether there are none.
    #[must_use]
    pub fn is_empty(&self) -> bool {
        self.count == 0
    }

    /// Whether these are all.
    #[must_use]
    pub fn is_all(&self) -> bool {
        self.is_all
    }

    /// The outcome at this index, from 0: `None` exactly past the last.
    #[must_use]
    pub fn at(&self, index: u64) -> Option<Outcome> {
        let mut words = vec![reading::NO_COMPLETION; 16];
        let count = loop {
            let mut count = 0;
            // SAFETY: the place is full from `new` on, no reference to it is handed out, and outcomes are used by one thread; the room is that of a slice.
            let result = unsafe {
                ffi::wulgach_outcomes_completions(
                    self.place.get(),
                    index,
                    words.as_mut_ptr(),
                    words.len(),
                    &mut count,
                )
            };
            if result != 0 {
                return None;
            }
            let count = usize::try_from(count).ok()?;
            if count <= words.len() {
                break count;
            }
            words.resize(count, reading::NO_COMPLETION);
        };
        Some(Outcome {
            completions: words[..count].iter().map(reading::completion).collect(),
            files: (0..self.files)
                .map(|fd| self.file(index, fd as i32))
                .collect::<Option<_>>()?,
        })
    }

    /// The outcomes one by one. Each is read when it is asked for.
    #[must_use]
    pub fn iter(&self) -> Iter<'_> {
        Iter {
            outcomes: self,
            next: 0,
        }
    }

    fn file(&self, index: u64, fd: i32) -> Option<OutcomeFile> {
        let mut file = reading::NO_FILE;
        // SAFETY: as in `at`.
        let result = unsafe { ffi::wulgach_outcomes_state(self.place.get(), index, fd, &mut file) };
        if result != 0 {
            return None;
        }
        let state = reading::file(&file);
        let bytes = (0..u64::from(state.len))
            .map(|at| {
                let mut byte = 0;
                // SAFETY: as in `at`.
                unsafe { ffi::wulgach_outcomes_byte(self.place.get(), index, fd, at, &mut byte) };
                byte
            })
            .collect();
        Some(OutcomeFile { state, bytes })
    }
}

/// The outcomes one by one.
#[derive(Debug)]
pub struct Iter<'a> {
    outcomes: &'a Outcomes,
    next: u64,
}

impl Iterator for Iter<'_> {
    type Item = Outcome;

    fn next(&mut self) -> Option<Outcome> {
        let outcome = self.outcomes.at(self.next)?;
        self.next += 1;
        Some(outcome)
    }
}

impl<'a> IntoIterator for &'a Outcomes {
    type Item = Outcome;
    type IntoIter = Iter<'a>;

    fn into_iter(self) -> Iter<'a> {
        self.iter()
    }
}

impl Drop for Outcomes {
    fn drop(&mut self) {
        // SAFETY: the place is full, and isn't used again.
        unsafe { ffi::wulgach_outcomes_free(self.place.get_mut()) };
    }
}
