//! Steps, answers and set-ups as a trace has them, written by the library.

use crate::answer::Answer;
use crate::entry::Entry;
use crate::error::Error;
use crate::ffi;
use crate::setup::Setup;
use crate::step::Step;
use std::fmt;

/// More than a line has: `WULGACH_MOST_OF_LINE` of the header.
const MOST: usize = 512;

/// What a call writes that returns 0 if there is a line, else what it returns.
fn written(call: impl FnOnce(*mut u8, usize, &mut u64) -> i32) -> Result<String, i32> {
    let (mut bytes, mut len) = ([0; MOST], 0);
    match call(bytes.as_mut_ptr(), MOST, &mut len) {
        0 => Ok(String::from_utf8_lossy(&bytes[..MOST.min(len as usize)]).into_owned()),
        result => Err(result),
    }
}

/// The line of a step with its answer.
fn line(step: &Step, answer: &Answer) -> Result<String, i32> {
    let (step, answer) = (step.words(), answer.words());
    // SAFETY: the structs are those of the header, and there is as much room as is said.
    written(|bytes, room, len| unsafe { ffi::wulgach_trace_line(&step, &answer, bytes, room, len) })
}

/// Writes a line without what stands before or after it.
fn write(
    f: &mut fmt::Formatter<'_>,
    line: Result<String, i32>,
    before: &str,
    after: &str,
) -> fmt::Result {
    let line = line.map_err(|_| fmt::Error)?;
    let line = line
        .strip_prefix(before)
        .and_then(|rest| rest.strip_suffix(after));
    f.pad(line.ok_or(fmt::Error)?)
}

/// As the trace language has it. An entry with other fields than the form of its operation has is written as its bytes.
///
/// ```
/// use wulgach::{Answer, Entry, Step};
///
/// let (step, answer) = (Step::Fill { slot: 0, entry: Entry::write(7, 0, 1, 0, b"ab") }, Answer::Filled);
/// assert_eq!(format!("{step} = {answer}"), "fill 0 write 7 - 1 0 6162 = ok");
/// ```
impl fmt::Display for Step {
    fn fmt(&self, f: &mut fmt::Formatter<'_>) -> fmt::Result {
        match (line(self, &Answer::Shut), self) {
            (Err(-22), Step::Fill { slot, entry }) => write!(f, "fill {slot} raw {}", Hex(*entry)),
            (line, _) => write(f, line, "", " = ok"),
        }
    }
}

/// As the trace language has it.
///
/// ```
/// use wulgach::Answer;
///
/// assert_eq!(Answer::Ended { res: -5, bytes: [0; 64] }.to_string(), "ended -5");
/// assert_eq!(Answer::Taken { accepted: 2, dropped: 0, head: 3 }.to_string(), "taken 2 dropped 0 head 3");
/// ```
impl fmt::Display for Answer {
    fn fmt(&self, f: &mut fmt::Formatter<'_>) -> fmt::Result {
        write(f, line(&Step::Close, self), "close = ", "")
    }
}

/// The bytes of an entry, two digits each.
struct Hex(Entry);

impl fmt::Display for Hex {
    fn fmt(&self, f: &mut fmt::Formatter<'_>) -> fmt::Result {
        <[u8; 128]>::from(self.0)
            .iter()
            .try_for_each(|byte| write!(f, "{byte:02x}"))
    }
}

impl Setup {
    /// The first line of a trace over this set-up, by which `uring check` judges the others and `uring explain` draws them.
    ///
    /// ```
    /// use wulgach::{Error, Setup};
    ///
    /// # fn main() -> Result<(), Error> {
    /// assert_eq!(Setup::default().trace_line()?, "# setup --sq 4 --cq 8 --files 2 --start 0");
    /// # Ok(())
    /// # }
    /// ```
    ///
    /// # Errors
    ///
    /// `BadSetup` if no core has it, and `NoMemory`.
    pub fn trace_line(&self) -> Result<String, Error> {
        let words = self.words();
        // SAFETY: as in `line`.
        let line = written(|bytes, room, len| unsafe {
            ffi::wulgach_trace_setup(&words, bytes, room, len)
        });
        match line {
            Ok(line) => Ok(format!("# {line}")),
            Err(-22) => Err(Error::BadSetup),
            Err(_) => Err(Error::NoMemory),
        }
    }
}
