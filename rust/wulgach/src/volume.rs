use crate::error::Error;
use crate::ffi::{self, Place};
use std::cell::UnsafeCell;
use std::ops::Range;

/// One file, and what a power failure may leave of it. You say when a write or a sync begins and when it ends.
///
/// A write is safe if it had ended when a sync began that has ended since with success, lies whole in the bytes that the sync is of, and no failed sync had reached it by then. That the write ended before the sync did isn't enough:
///
/// ```
/// use wulgach::Volume;
///
/// # fn main() -> Result<(), wulgach::Error> {
/// let mut volume = Volume::new(1, b"....")?;
/// let one = volume.begin_write(0, b"aa")?;
/// let two = volume.begin_write(2, b"bb")?;
/// assert!(volume.end_write(one));
/// let sync = volume.begin_sync()?;
/// assert!(volume.end_write(two));
/// assert!(volume.end_sync(sync));
///
/// assert_eq!(volume.contents()?, b"aabb");
/// assert!(volume.is_safe(one) && !volume.is_safe(two));
/// assert_eq!(volume.crash(&[])?, b"aa..");
/// for seed in 0..100 {
///     let left = volume.crash(&Volume::choice(seed, sync, 64))?;
///     assert_eq!(left[..2], *b"aa");
/// }
/// # Ok(())
/// # }
/// ```
///
/// It may be sent to another thread, and isn't `Sync`: see [the crate's page](crate#threads).
#[derive(Debug)]
pub struct Volume {
    place: UnsafeCell<Place>,
}

/// What a call that begins or reads returned.
fn done(result: i32) -> Result<(), Error> {
    match result {
        0 => Ok(()),
        -22 => Err(Error::NoNumber),
        -27 => Err(Error::TooFar),
        _ => Err(Error::NoMemory),
    }
}

impl Volume {
    /// A volume whose units have so many bytes, and which begins with these bytes. They are safe. A crash leaves each unit by itself; 1 promises least.
    ///
    /// # Errors
    ///
    /// `BadUnit` if a unit has no byte, and `NoMemory`.
    pub fn new(unit: u64, first: &[u8]) -> Result<Volume, Error> {
        let mut place = Place::empty();
        // SAFETY: the place is empty, and the pointer is that of a slice of this length.
        match unsafe { ffi::wulgach_volume_new(&mut place, unit, first.as_ptr(), first.len()) } {
            0 => Ok(Volume {
                place: UnsafeCell::new(place),
            }),
            -22 => Err(Error::BadUnit),
            _ => Err(Error::NoMemory),
        }
    }

    /// Begins a write of these bytes at an offset, and returns its number: 1 for the first write or sync, and one more for each.
    ///
    /// # Errors
    ///
    /// `TooFar` if it would end above 2^63 - 1, `NoNumber`, and `NoMemory`. Nothing has changed.
    pub fn begin_write(&mut self, off: u64, bytes: &[u8]) -> Result<u64, Error> {
        let mut number = 0;
        // SAFETY: the place is full from `new` on, and lent to this call alone; the slice is whole.
        done(unsafe {
            ffi::wulgach_volume_begin_write(
                self.place.get_mut(),
                off,
                bytes.as_ptr(),
                bytes.len(),
                &mut number,
            )
        })?;
        Ok(number)
    }

    /// Ends a write with success. Returns whether it ran.
    #[must_use]
    pub fn end_write(&mut self, number: u64) -> bool {
        // SAFETY: as in `begin_write`.
        unsafe { ffi::wulgach_volume_end_write(self.place.get_mut(), number) == 0 }
    }

    /// Ends a write with a failure: any part of it may be found, no sync makes it safe, and each write that begins later lies over it. Returns whether it ran.
    ///
    /// One that ended short has failed, and what it moved is a write of its own:
    ///
    /// ```
    /// # use wulgach::Volume;
    /// # fn main() -> Result<(), wulgach::Error> {
    /// let mut volume = Volume::new(1, b"....")?;
    /// let write = volume.begin_write(0, b"abcd")?;
    /// volume.fail_write(write);
    /// let moved = volume.begin_write(0, b"ab")?;
    /// volume.end_write(moved);
    /// let sync = volume.begin_sync()?;
    /// volume.end_sync(sync);
    /// assert!(volume.is_safe(moved) && !volume.is_safe(write));
    /// assert_eq!(volume.count_images()?, 4);
    /// # Ok(())
    /// # }
    /// ```
    #[must_use]
    pub fn fail_write(&mut self, number: u64) -> bool {
        // SAFETY: as in `begin_write`.
        unsafe { ffi::wulgach_volume_fail_write(self.place.get_mut(), number) == 0 }
    }

    /// Begins a sync of the whole file, and returns its number. An fdatasync is a sync too: it leaves out what no read of the file needs.
    ///
    /// # Errors
    ///
    /// `NoNumber` and `NoMemory`. Nothing has changed.
    pub fn begin_sync(&mut self) -> Result<u64, Error> {
        let mut number = 0;
        // SAFETY: as in `begin_write`.
        done(unsafe { ffi::wulgach_volume_begin_sync(self.place.get_mut(), &mut number) })?;
        Ok(number)
    }

    /// Begins a sync of these bytes of the file, and returns its number. It covers the writes that lie in them whole.
    ///
    /// ```
    /// # use wulgach::Volume;
    /// # fn main() -> Result<(), wulgach::Error> {
    /// let mut volume = Volume::new(1, b"....")?;
    /// let (one, two) = (volume.begin_write(0, b"aa")?, volume.begin_write(1, b"bb")?);
    /// assert!(volume.end_write(one));
    /// assert!(volume.end_write(two));
    /// let sync = volume.begin_range_sync(0..2)?;
    /// assert!(volume.end_sync(sync));
    /// assert!(volume.is_safe(one) && !volume.is_safe(two));
    /// # Ok(())
    /// # }
    /// ```
    ///
    /// # Errors
    ///
    /// `NoNumber` and `NoMemory`. Nothing has changed.
    pub fn begin_range_sync(&mut self, bytes: Range<u64>) -> Result<u64, Error> {
        let mut number = 0;
        let len = bytes.end.saturating_sub(bytes.start);
        // SAFETY: as in `begin_write`.
        done(unsafe {
            ffi::wulgach_volume_begin_range_sync(
                self.place.get_mut(),
                bytes.start,
                len,
                &mut number,
            )
        })?;
        Ok(number)
    }

    /// Ends a sync with success. Returns whether it ran.
    #[must_use]
    pub fn end_sync(&mut self, number: u64) -> bool {
        // SAFETY: as in `begin_write`.
        unsafe { ffi::wulgach_volume_end_sync(self.place.get_mut(), number) == 0 }
    }

    /// Ends a sync with an error: no later sync then makes safe what it had reached. Returns whether it ran.
    #[must_use]
    pub fn fail_sync(&mut self, number: u64) -> bool {
        // SAFETY: as in `begin_write`.
        unsafe { ffi::wulgach_volume_fail_sync(self.place.get_mut(), number) == 0 }
    }

    /// Whether a write is safe: false too if no write has this number.
    #[must_use]
    pub fn is_safe(&self, number: u64) -> bool {
        let mut is_safe = false;
        // SAFETY: the place is full, no reference to it is handed out, and a volume is used by one thread.
        unsafe { ffi::wulgach_volume_is_safe(self.place.get(), number, &mut is_safe) };
        is_safe
    }

    /// The file as a read shows it: the first bytes with the writes over them that have ended.
    ///
    /// # Errors
    ///
    /// `NoMemory`.
    pub fn contents(&self) -> Result<Vec<u8>, Error> {
        // SAFETY: as in `is_safe`; the room is that of a slice.
        read(|bytes, room, len| {
            done(unsafe { ffi::wulgach_volume_contents(self.place.get(), bytes, room, len) })
        })
    }

    /// The file as a crash may leave it. The volume stays as it is, so that many crashes can be tried; for the time after one, make a new volume of what it left.
    ///
    /// Any numbers are a choice. A 0 ends a part: the first part is for the length, each later one for a unit, in their order. The numbers of a part name the writes that are left, one over the other; one that may not come next is passed over. After them follow the other writes, up to the last safe one. Every image that a crash may leave is left by some choice.
    ///
    /// # Errors
    ///
    /// `NoMemory`.
    pub fn crash(&self, choice: &[u64]) -> Result<Vec<u8>, Error> {
        // SAFETY: as in `contents`; the choice is a slice.
        read(|bytes, room, len| {
            done(unsafe {
                ffi::wulgach_volume_crash(
                    self.place.get(),
                    choice.as_ptr(),
                    choice.len(),
                    bytes,
                    room,
                    len,
                )
            })
        })
    }

    /// How many images there are: how many different files a crash may leave. `u64::MAX` if there are as many or more.
    ///
    /// # Errors
    ///
    /// `NoMemory`.
    pub fn count_images(&self) -> Result<u64, Error> {
        let mut count = 0;
        // SAFETY: as in `is_safe`.
        done(unsafe { ffi::wulgach_volume_count_images(self.place.get(), &mut count) })?;
        Ok(count)
    }

    /// The images, each once, or nothing if there are more than `most`.
    ///
    /// ```
    /// # use wulgach::Volume;
    /// # fn main() -> Result<(), wulgach::Error> {
    /// let mut volume = Volume::new(1, b"..")?;
    /// volume.begin_write(0, b"ab")?;
    /// let mut images = volume.images(100)?.expect("few");
    /// images.sort();
    /// assert_eq!(images, [b"..", b".b", b"a.", b"ab"]);
    /// assert_eq!(volume.count_images()?, 4);
    /// assert_eq!(volume.images(3)?, None);
    /// # Ok(())
    /// # }
    /// ```
    ///
    /// # Errors
    ///
    /// `NoMemory`.
    pub fn images(&self, most: u32) -> Result<Option<Vec<Vec<u8>>>, Error> {
        let found = self.count_images()?;
        if found > u64::from(most) {
            return Ok(None);
        }
        read_all(found, |bytes, lens, count, total| {
            // SAFETY: as in `is_safe`; the rooms are those of slices.
            done(unsafe {
                ffi::wulgach_volume_images(
                    self.place.get(),
                    bytes.as_mut_ptr(),
                    bytes.len(),
                    lens.as_mut_ptr(),
                    lens.len(),
                    count,
                    total,
                )
            })
        })
        .map(Some)
    }

    /// Gives memory back. A write that isn't safe is let go if all of its bytes lie under a safe one that began after it had ended. Then a write becomes part of the first bytes, and is forgotten, if it is safe, each one that had ended when it began is safe too, and it had ended when each other one of its bytes began. What a crash may leave stays as it was, whatever happens later. `is_safe` doesn't know the number of a write that is gone, so ask before.
    ///
    /// ```
    /// # use wulgach::Volume;
    /// # fn main() -> Result<(), wulgach::Error> {
    /// let mut volume = Volume::new(1, b"....")?;
    /// let write = volume.begin_write(0, b"ab")?;
    /// assert!(volume.end_write(write));
    /// let sync = volume.begin_sync()?;
    /// assert!(volume.end_sync(sync));
    /// volume.fold()?;
    /// assert_eq!(volume.images(1)?, Some(vec![b"ab..".to_vec()]));
    /// # Ok(())
    /// # }
    /// ```
    ///
    /// # Errors
    ///
    /// `NoMemory`: nothing has changed.
    pub fn fold(&mut self) -> Result<(), Error> {
        // SAFETY: as in `begin_write`.
        done(unsafe { ffi::wulgach_volume_fold(self.place.get_mut()) })
    }

    /// A choice of `count` numbers up to `last`, the greatest that a write has, by a seed: the same each time for the same seed. One in four ends a part. It is that of `wulgach_volume_choose` of the header.
    #[must_use]
    pub fn choice(seed: u64, last: u64, count: usize) -> Vec<u64> {
        let mut seed = seed;
        (0..count)
            .map(|_| {
                seed = seed.wrapping_add(0x9e37_79b9_7f4a_7c15);
                let mut bits = seed;
                bits = (bits ^ bits >> 30).wrapping_mul(0xbf58_476d_1ce4_e5b9);
                bits = (bits ^ bits >> 27).wrapping_mul(0x94d0_49bb_1331_11eb);
                bits ^= bits >> 31;
                if bits % 4 == 0 || last == 0 {
                    0
                } else {
                    1 + bits / 4 % last
                }
            })
            .collect()
    }
}

/// The bytes that a call gives: once to learn how many there are, and once with room for them.
pub(crate) fn read(
    call: impl Fn(*mut u8, usize, *mut u64) -> Result<(), Error>,
) -> Result<Vec<u8>, Error> {
    let mut bytes = vec![0; 256];
    loop {
        let mut len = 0;
        call(bytes.as_mut_ptr(), bytes.len(), &mut len)?;
        let len = usize::try_from(len).map_err(|_| Error::NoMemory)?;
        if len <= bytes.len() {
            bytes.truncate(len);
            return Ok(bytes);
        }
        bytes.resize(len, 0);
    }
}

/// The images that a call gives, so many: once to learn how many bytes they have, and once with room for them.
pub(crate) fn read_all(
    found: u64,
    call: impl Fn(&mut [u8], &mut [u64], &mut u64, &mut u64) -> Result<(), Error>,
) -> Result<Vec<Vec<u8>>, Error> {
    let (mut count, mut total) = (0, 0);
    let mut lens = vec![0; usize::try_from(found).map_err(|_| Error::NoMemory)?];
    let mut bytes = Vec::new();
    loop {
        call(&mut bytes, &mut lens, &mut count, &mut total)?;
        let total = usize::try_from(total).map_err(|_| Error::NoMemory)?;
        if total <= bytes.len() {
            break;
        }
        bytes.resize(total, 0);
    }
    let mut rest = bytes.as_slice();
    Ok(lens
        .iter()
        .map(|len| {
            let (image, after) = rest.split_at(*len as usize);
            rest = after;
            image.to_vec()
        })
        .collect())
}

impl Drop for Volume {
    fn drop(&mut self) {
        // SAFETY: the place is full, and isn't used again.
        unsafe { ffi::wulgach_volume_free(self.place.get_mut()) };
    }
}
