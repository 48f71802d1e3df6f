use crate::ffi;

/// A field of a set-up that can be out of its range.
#[derive(Clone, Copy, Debug, PartialEq, Eq)]
pub enum SetupField {
    /// `sq`: the entries of the submission ring.
    Sq,
    /// `cq`: too few entries or too many, or fewer after rounding than the submission ring's.
    Cq,
    /// `files`, of a machine alone.
    Files,
}

/// The sizes of a pair of rings.
#[derive(Clone, Copy, Debug, PartialEq, Eq)]
pub struct Setup {
    /// Entries of the submission ring: 1 to 4,096, rounded up to a power of two.
    pub sq: u32,
    /// Entries of the completion ring: 1 to 8,192, rounded up, and not below the other ring's. `None`: twice those.
    pub cq: Option<u32>,
    /// Files of a machine: 1 to 64. A core has none, and any number is taken.
    pub files: u32,
    /// The index word at which both rings begin.
    pub start: u32,
    /// Whether a submission call ends after an entry with a fault, also one with a link flag, or where Linux's rules end it, and leaves the rest to later calls. Else it goes on.
    pub stops: bool,
    /// Whether requests are kept by Linux's rules, as 6.18 was seen to, where they differ from the manual pages'. Else by the manual pages'.
    pub linux: bool,
}

impl Default for Setup {
    /// 4 entries, 8 completions, 2 files, from word 0 on, calls that go on, and the manual pages' rules.
    fn default() -> Setup {
        Setup {
            sq: 4,
            cq: None,
            files: 2,
            start: 0,
            stops: false,
            linux: false,
        }
    }
}

impl Setup {
    /// The first field that is out of its range, of a machine's set-up: `Machine::new` returns `Error::BadSetup` exactly if there is one, and `Core::new` exactly if there is one that isn't `Files`.
    ///
    /// ```
    /// use wulgach::{Core, Error, Machine, Setup, SetupField};
    ///
    /// let no_files = Setup { files: 0, ..Setup::default() };
    /// assert_eq!(no_files.fault(), Some(SetupField::Files));
    /// assert_eq!(Machine::new(&no_files).err(), Some(Error::BadSetup));
    /// assert!(Core::new(&no_files).is_ok());
    /// ```
    #[must_use]
    pub fn fault(&self) -> Option<SetupField> {
        // SAFETY: the struct is that of the header.
        match unsafe { ffi::wulgach_setup_fault(&self.words()) } {
            0 => None,
            1 => Some(SetupField::Sq),
            2 => Some(SetupField::Cq),
            3 => Some(SetupField::Files),
            field => unreachable!("no field has the number {field}"),
        }
    }

    pub(crate) fn words(&self) -> ffi::Setup {
        ffi::Setup {
            sq: self.sq,
            cq: self.cq.unwrap_or(0),
            files: self.files,
            start: self.start,
            has_cq: self.cq.is_some(),
            stops: self.stops,
            linux_rules: self.linux,
        }
    }
}
