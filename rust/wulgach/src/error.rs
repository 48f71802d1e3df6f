use std::error;
use std::fmt;
use std::io;

/// Why a call is refused. A refusal changes nothing, but for `NoMemory` of `CrashMachine::step`.
#[derive(Clone, Copy, Debug, PartialEq, Eq)]
#[non_exhaustive]
pub enum Error {
    /// A number of the set-up is out of its range: `Setup::fault` says which.
    BadSetup,

    /// Out of memory.
    NoMemory,

    /// A core was given `Step::Finish`: it is told how a request ended by `Core::finish`.
    FinishOfCore,

    /// The units of a volume or a crash machine have no byte.
    BadUnit,

    /// A write would end above 2^63 - 1.
    TooFar,

    /// Each number up to 2^64 - 2 was given to a write or a sync of a volume.
    NoNumber,

    /// More files are given than the machine has.
    TooManyFiles,

    /// A file is longer than 65,536 bytes.
    FileTooLong,

    /// There is no file of this descriptor.
    NoFile,

    /// Memory was refused for a step of a crash machine, and so each further one is, and each crash.
    Lost,

    /// Outcomes aren't told of a ring of this set-up: it stops after an entry with a fault, it keeps Linux's rules, or a call has more entries than its submission ring.
    NotTakenWhole,
}

impl fmt::Display for Error {
    fn fmt(&self, f: &mut fmt::Formatter<'_>) -> fmt::Result {
        f.write_str(match self {
            Error::BadSetup => "a number of the set-up is out of its range",
            Error::NoMemory => "out of memory",
            Error::FinishOfCore => "a core is told of an end by `finish`",
            Error::BadUnit => "a unit of no byte",
            Error::TooFar => "a write past the last offset",
            Error::NoNumber => "the numbers are used up",
            Error::TooManyFiles => "more files than the machine has",
            Error::FileTooLong => "a file above 65,536 bytes",
            Error::NoFile => "no such file",
            Error::Lost => "a machine that is lost, since memory was refused to it",
            Error::NotTakenWhole => "a ring that stops, keeps Linux's rules, or is too small for a call",
        })
    }
}

impl error::Error for Error {}

/// Want of memory is `OutOfMemory`, a file that isn't there `NotFound`, and anything else `InvalidInput`.
impl From<Error> for io::Error {
    fn from(error: Error) -> io::Error {
        let kind = match error {
            Error::NoMemory | Error::Lost => io::ErrorKind::OutOfMemory,
            Error::NoFile => io::ErrorKind::NotFound,
            _ => io::ErrorKind::InvalidInput,
        };
        io::Error::new(kind, error)
    }
}

/// What `new` of a core or a machine returned.
pub(crate) fn made(result: i32) -> Result<(), Error> {
    match result {
        0 => Ok(()),
        -22 => Err(Error::BadSetup),
        _ => Err(Error::NoMemory),
    }
}
