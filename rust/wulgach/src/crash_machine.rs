use crate::answer::{Answer, Completion};
use crate::error::Error;
use crate::ffi::{self, Place};
use crate::operation::{Operation, NO_OPERATION};
use crate::reading::{self, found, Counts, FileState};
use crate::setup::Setup;
use crate::step::Step;
use crate::volume::{read, read_all, Volume};
use std::cell::UnsafeCell;

/// A machine whose power may fail. It is moved by steps as a [`Machine`](crate::Machine) is, and gives the same answers; and it keeps a [`Volume`] of each of its files, on which a write is begun as its request begins to run and ended as it is finished with all its bytes, and a sync likewise with 0.
///
/// What happens from one start to the crash that ends it is an epoch. [`crash`](CrashMachine::crash) gives the machine of the next one: no request, an empty ring, and files that the crash may leave. The old one stays as it is, so that many crashes can be tried. A store with a log that recovers:
///
/// ```
/// use wulgach::{flags, Answer, CrashMachine, Entry, Error, Setup, Step};
///
/// /// Appends a record with an fsync, and settles both.
/// fn append(machine: &mut CrashMachine, at: u64, record: &[u8], link: u8) -> Result<(), Error> {
///     for (slot, entry) in (0..).zip([Entry::write(1, link, 0, at, record), Entry::fsync(2, 0, 0)]) {
///         machine.step(Step::Fill { slot, entry })?;
///         machine.step(Step::Index { word: slot })?;
///     }
///     machine.step(Step::StoreTail)?;
///     machine.step(Step::Begin { count: 2 })?;
///     while machine.step(Step::Take)? != Answer::NoMore {}
///     machine.step(Step::End)?;
///     while machine.counts().outstanding > 0 {
///         while let Answer::Next(number) = machine.step(Step::Next)? {
///             machine.step(Step::Issue { number })?;
///         }
///         for number in 0..2 {
///             machine.step(Step::Finish { number })?;
///         }
///     }
///     Ok(())
/// }
///
/// # fn main() -> Result<(), Error> {
/// // The fsync is linked to the write, so that it is issued when that has ended: the record is safe.
/// let mut machine = CrashMachine::new(&Setup::default(), 1)?;
/// append(&mut machine, 0, b"one", flags::IO_LINK)?;
/// assert!(machine.is_safe(0, 0)?);
/// let mut next = machine.crash_by(7, 2, 64)?;
/// assert_eq!(next.contents(0), Some(b"one".to_vec()));
///
/// // In the next epoch it isn't: it is issued while the write runs, and covers nothing of it.
/// append(&mut next, 3, b"two", 0)?;
/// assert_eq!(next.contents(0), Some(b"onetwo".to_vec()));
/// assert!(!next.is_safe(0, 0)?);
/// assert_eq!(next.crash::<&[u64]>(&[])?.contents(0), Some(b"one".to_vec()));
/// # Ok(())
/// # }
/// ```
///
/// It may be sent to another thread, and isn't `Sync`: see [the crate's page](crate#threads).
#[derive(Debug)]
pub struct CrashMachine {
    place: UnsafeCell<Place>,
    files: u32,
}

/// What a call on a file returned.
fn done(result: i32) -> Result<(), Error> {
    match result {
        0 => Ok(()),
        -131 => Err(Error::Lost),
        -2 => Err(Error::NoFile),
        _ => Err(Error::NoMemory),
    }
}

impl CrashMachine {
    /// A new machine, its files empty. A crash leaves each unit of so many bytes by itself; 1 promises least.
    ///
    /// # Errors
    ///
    /// `BadSetup`, `BadUnit` if a unit has no byte, and `NoMemory`.
    pub fn new(setup: &Setup, unit: u64) -> Result<CrashMachine, Error> {
        CrashMachine::on::<&[u8]>(setup, unit, &[])
    }

    /// A machine whose first files have these bytes, and whose others are empty.
    ///
    /// ```
    /// use wulgach::{CrashMachine, Error, Setup};
    ///
    /// # fn main() -> Result<(), Error> {
    /// let setup = Setup { files: 2, ..Setup::default() };
    /// assert_eq!(CrashMachine::on(&setup, 1, &["a", "bc"])?.contents(1), Some(b"bc".to_vec()));
    /// assert_eq!(CrashMachine::on(&setup, 1, &["a", "b", "c"]).err(), Some(Error::TooManyFiles));
    /// assert_eq!(CrashMachine::on(&setup, 0, &["a"]).err(), Some(Error::BadUnit));
    /// assert_eq!(CrashMachine::on(&setup, 1, &[vec![0; 65_537]]).err(), Some(Error::FileTooLong));
    /// # Ok(())
    /// # }
    /// ```
    ///
    /// # Errors
    ///
    /// Those of `new`, `TooManyFiles`, and `FileTooLong` of one above 65,536 bytes.
    pub fn on<B: AsRef<[u8]>>(
        setup: &Setup,
        unit: u64,
        contents: &[B],
    ) -> Result<CrashMachine, Error> {
        let bytes: Vec<u8> = contents.iter().flat_map(|b| b.as_ref()).copied().collect();
        let lens: Vec<u64> = contents.iter().map(|b| b.as_ref().len() as u64).collect();
        let mut place = Place::empty();
        // SAFETY: the place is empty, the struct is that of the header, and the pointers are those of slices of these lengths.
        let result = unsafe {
            ffi::wulgach_crash_machine_on(
                &mut place,
                &setup.words(),
                unit,
                bytes.as_ptr(),
                bytes.len(),
                lens.as_ptr(),
                lens.len(),
            )
        };
        match result {
            0 => Ok(CrashMachine {
                place: UnsafeCell::new(place),
                files: setup.files,
            }),
            -22 if setup.fault().is_some() => Err(Error::BadSetup),
            -22 if unit == 0 => Err(Error::BadUnit),
            -22 => Err(Error::TooManyFiles),
            -27 => Err(Error::FileTooLong),
            _ => Err(Error::NoMemory),
        }
    }

    /// Makes one step, and returns its answer.
    ///
    /// # Errors
    ///
    /// `NoMemory` if memory was refused for what is kept of a file: then the machine is lost, and each further step is `Lost`.
    pub fn step(&mut self, step: Step) -> Result<Answer, Error> {
        let mut answer = ffi::Answer::ZERO;
        // SAFETY: the place is full from `on` on, and lent to this call alone.
        done(unsafe {
            ffi::wulgach_crash_machine_step(self.place.get_mut(), &step.words(), &mut answer)
        })?;
        Ok(Answer::of(&answer))
    }

    /// Whether the machine is lost: memory was refused for a step.
    #[must_use]
    pub fn is_lost(&self) -> bool {
        let mut is_lost = false;
        // SAFETY: the place is full, no reference to it is handed out, and a machine is used by one thread.
        unsafe { ffi::wulgach_crash_machine_is_lost(self.place.get(), &mut is_lost) };
        is_lost
    }

    /// How far the machine has come in this epoch.
    #[must_use]
    pub fn counts(&self) -> Counts {
        let mut counts = reading::NO_COUNTS;
        // SAFETY: as in `is_lost`.
        unsafe { ffi::wulgach_crash_machine_counts(self.place.get(), &mut counts) };
        reading::counts(&counts)
    }

    /// The completion at this index among those posted and not reaped, the oldest first.
    #[must_use]
    pub fn rest(&self, index: u64) -> Option<Completion> {
        // SAFETY: as in `is_lost`.
        found(reading::NO_COMPLETION, |completion| unsafe {
            ffi::wulgach_crash_machine_rest(self.place.get(), index, completion)
        })
        .map(|completion| reading::completion(&completion))
    }

    /// What the request of this number asks for, if it is running.
    #[must_use]
    pub fn running_op(&self, number: u64) -> Option<Operation> {
        // SAFETY: as in `is_lost`.
        found(NO_OPERATION, |operation| unsafe {
            ffi::wulgach_crash_machine_running_op(self.place.get(), number, operation)
        })
        .map(|operation| Operation::of(&operation))
    }

    /// How many requests can be issued.
    #[must_use]
    pub fn issuable_count(&self) -> u64 {
        let mut count = 0;
        // SAFETY: as in `is_lost`.
        unsafe { ffi::wulgach_crash_machine_issuable(self.place.get(), &mut count) };
        count
    }

    /// The request at this index, from 0, of those that can be issued, in the order of their numbers: `None` exactly past the last.
    #[must_use]
    pub fn nth_issuable(&self, index: u64) -> Option<u64> {
        // SAFETY: as in `is_lost`.
        found(0, |number| unsafe {
            ffi::wulgach_crash_machine_nth_issuable(self.place.get(), index, number)
        })
    }

    /// How the file of a descriptor stands. Writes and syncs are counted from the start of the epoch on.
    #[must_use]
    pub fn state(&self, fd: i32) -> Option<FileState> {
        // SAFETY: as in `is_lost`.
        found(reading::NO_FILE, |file| unsafe {
            ffi::wulgach_crash_machine_state(self.place.get(), fd, file)
        })
        .map(|file| reading::file(&file))
    }

    /// The byte at an offset of the file of a descriptor.
    #[must_use]
    pub fn byte(&self, fd: i32, at: u64) -> Option<u8> {
        // SAFETY: as in `is_lost`.
        found(0, |byte| unsafe {
            ffi::wulgach_crash_machine_byte(self.place.get(), fd, at, byte)
        })
    }

    /// The bytes of the file of a descriptor, as a read shows them.
    #[must_use]
    pub fn contents(&self, fd: i32) -> Option<Vec<u8>> {
        let len = self.state(fd)?.len;
        (0..u64::from(len)).map(|at| self.byte(fd, at)).collect()
    }

    /// Whether the write of a file that the request of this number is, in this epoch, is safe: false too if it is none.
    ///
    /// # Errors
    ///
    /// `NoFile` and `Lost`.
    pub fn is_safe(&self, fd: i32, number: u64) -> Result<bool, Error> {
        let mut is_safe = false;
        // SAFETY: as in `is_lost`.
        done(unsafe {
            ffi::wulgach_crash_machine_is_safe(self.place.get(), fd, number, &mut is_safe)
        })?;
        Ok(is_safe)
    }

    /// A file as a crash may leave it, by a choice, as [`Volume::crash`] says. A choice names a write by its place among the writes and syncs of the file that have begun in this epoch, from 1.
    ///
    /// # Errors
    ///
    /// `NoFile`, `Lost` and `NoMemory`.
    pub fn image(&self, fd: i32, choice: &[u64]) -> Result<Vec<u8>, Error> {
        read(|bytes, room, len| {
            // SAFETY: as in `is_lost`; choice and room are those of slices.
            done(unsafe {
                ffi::wulgach_crash_machine_image(
                    self.place.get(),
                    fd,
                    choice.as_ptr(),
                    choice.len(),
                    bytes,
                    room,
                    len,
                )
            })
        })
    }

    /// How many images a file has: how many different files a crash may leave. `u64::MAX` if there are as many or more.
    ///
    /// # Errors
    ///
    /// `NoFile`, `Lost` and `NoMemory`.
    pub fn count_images(&self, fd: i32) -> Result<u64, Error> {
        let mut count = 0;
        // SAFETY: as in `is_lost`.
        done(unsafe { ffi::wulgach_crash_machine_count_images(self.place.get(), fd, &mut count) })?;
        Ok(count)
    }

    /// The images of a file, each once, or nothing if there are more than `most`.
    ///
    /// # Errors
    ///
    /// `NoFile`, `Lost` and `NoMemory`.
    pub fn images(&self, fd: i32, most: u32) -> Result<Option<Vec<Vec<u8>>>, Error> {
        let found = self.count_images(fd)?;
        if found > u64::from(most) {
            return Ok(None);
        }
        read_all(found, |bytes, lens, count, total| {
            // SAFETY: as in `is_lost`; the rooms are those of slices.
            done(unsafe {
                ffi::wulgach_crash_machine_images(
                    self.place.get(),
                    fd,
                    bytes.as_mut_ptr(),
                    bytes.len(),
                    lens.as_mut_ptr(),
                    lens.len(),
                    count,
                    total,
                )
            })
        })
        .map(Some)
    }

    /// Gives memory back: folds the volume of each file. What a crash may leave stays as it was, whatever happens later, and so do all answers. A write that is gone has no number any more, so that [`is_safe`](CrashMachine::is_safe) is false of its request: ask before.
    ///
    /// # Errors
    ///
    /// `Lost`, and `NoMemory`: some of this may be left for another call.
    pub fn fold(&mut self) -> Result<(), Error> {
        // SAFETY: as in `step`.
        done(unsafe { ffi::wulgach_crash_machine_fold(self.place.get_mut()) })
    }

    /// The power fails: the machine of the next epoch, whose files are left each by the choice at its place; one that is missing is empty.
    ///
    /// # Errors
    ///
    /// `Lost` and `NoMemory`.
    pub fn crash<C: AsRef<[u64]>>(&self, choices: &[C]) -> Result<CrashMachine, Error> {
        let numbers: Vec<u64> = choices.iter().flat_map(|c| c.as_ref()).copied().collect();
        let lens: Vec<u64> = choices.iter().map(|c| c.as_ref().len() as u64).collect();
        let mut next = Place::empty();
        // SAFETY: as in `is_lost`; the other place is empty, and the pointers are those of slices of these lengths.
        done(unsafe {
            ffi::wulgach_crash_machine_crash(
                self.place.get(),
                &mut next,
                numbers.as_ptr(),
                numbers.len(),
                lens.as_ptr(),
                lens.len(),
            )
        })?;
        Ok(CrashMachine {
            place: UnsafeCell::new(next),
            files: self.files,
        })
    }

    /// The same by a seed: each file is left by as many numbers up to `last` of one [`Volume::choice`].
    ///
    /// # Errors
    ///
    /// `Lost` and `NoMemory`.
    pub fn crash_by(&self, seed: u64, last: u64, count: usize) -> Result<CrashMachine, Error> {
        let numbers = Volume::choice(seed, last, count * self.files as usize);
        self.crash(&numbers.chunks(count.max(1)).collect::<Vec<_>>())
    }
}

impl Drop for CrashMachine {
    fn drop(&mut self) {
        // SAFETY: the place is full, and isn't used again.
        unsafe { ffi::wulgach_crash_machine_free(self.place.get_mut()) };
    }
}
