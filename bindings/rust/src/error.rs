//! The codes of the calls, as an enum. Its text is the library's own (`ph_text`), so that a code has the same words in C and here.

use crate::{sys, Ticket};
use std::{fmt, io::ErrorKind};

pub(crate) const POSSIBLE_LOSS: u32 = 10;

/// Why a call did not do what was asked.
#[derive(Clone, Copy, Debug, PartialEq, Eq)]
#[non_exhaustive]
pub enum Error {
    NoMemory,
    /// The text is no profile.
    NoProfile,
    /// The bytes of the store are another number than this.
    Size {
        wanted: u64,
    },
    /// Nothing is saved on the store.
    NoImage,
    /// What is saved there is damaged.
    Damaged,
    /// A call of the device failed.
    Device,
    /// A call of the device's file failed so, and the module is closed.
    File(ErrorKind),
    /// The module was closed, as a call of its file failed.
    NoHandle,
    /// The device is in a file, and its bytes are there.
    InFile,
    /// As many writes wait in the line's channel as its queue holds.
    Full,
    /// The energy doesn't suffice for one more write.
    EnergyLow {
        need: u64,
        has: u64,
    },
    Disarming,
    /// Mains were lost.
    Closed,
    /// As many writes were accepted since the last save as there is room for.
    TrailFull,
    NoSuchLine,
    /// As many reads are open in the line's channel as there is room for.
    ReadsFull,
    /// The bytes didn't come within the turns of a read: [`Module::collect`](crate::Module::collect) has them later, by this ticket.
    ReadWaits(Ticket),
    /// No read of this ticket waits: it was collected, or mains were lost.
    NoSuchRead,
    /// So few writes were accepted.
    NoSuchWrite {
        accepted: u64,
    },
    /// The energy doesn't suffice to arm.
    NeedEnergy {
        need: u64,
        has: u64,
    },
    /// There is no such event; it has this number.
    NoEvent {
        number: u64,
    },
    /// There is room for another number of lines than this, or for fewer answers.
    Room {
        wanted: u64,
    },
    SaveRunning,
    /// A call of the device has failed since the last save.
    Unsettled,
    /// There is no generation left.
    Spent,
    /// A step of a save was made, and others are to come.
    Stepped,
    /// A save waits for a write.
    Waiting,
    /// The gauge was low, so that the module is disarming.
    Turned,
    NoSave,
    /// The device failed, and the step is to be made again.
    Retry,
    /// The device failed, which ended the save.
    SaveFault,
    /// Mains were lost while the module was disarmed.
    Unsaved,
    /// Mains were lost, and the energy didn't suffice.
    Dark,
    /// A code that is none of these.
    Other(u32),
}

impl Error {
    pub(crate) fn of(code: u32, numbers: sys::Numbers) -> Error {
        let sys::Numbers { first, second } = numbers;
        match code {
            1 => Error::NoMemory,
            2 => Error::NoProfile,
            4 => Error::Size { wanted: first },
            5 => Error::NoImage,
            6 => Error::Damaged,
            7 => Error::Device,
            8 => Error::NoHandle,
            14 => Error::InFile,
            16 => Error::Full,
            17 => Error::EnergyLow { need: first, has: second },
            18 => Error::Disarming,
            19 => Error::Closed,
            20 => Error::TrailFull,
            21 => Error::NoSuchLine,
            22 => Error::ReadsFull,
            23 => Error::ReadWaits(Ticket {
                channel: first,
                number: second,
            }),
            24 => Error::NoSuchWrite { accepted: first },
            25 => Error::NoSuchRead,
            28 => Error::NoEvent { number: first },
            29 => Error::Room { wanted: first },
            32 => Error::NeedEnergy { need: first, has: second },
            33 => Error::SaveRunning,
            34 => Error::Unsettled,
            35 => Error::Spent,
            48 => Error::Stepped,
            49 => Error::Waiting,
            50 => Error::Turned,
            51 => Error::NoSave,
            52 => Error::Retry,
            53 => Error::SaveFault,
            54 => Error::Unsaved,
            55 => Error::Dark,
            code => Error::Other(code),
        }
    }

    pub(crate) fn check(code: u32, numbers: sys::Numbers) -> Result<(), Error> {
        if code == 0 {
            return Ok(());
        }
        Err(Error::of(code, numbers))
    }

    /// The code that C sees.
    pub fn code(&self) -> u32 {
        match *self {
            Error::NoMemory => 1,
            Error::NoProfile => 2,
            Error::Size { .. } => 4,
            Error::NoImage => 5,
            Error::Damaged => 6,
            Error::Device | Error::File(_) => 7,
            Error::NoHandle => 8,
            Error::InFile => 14,
            Error::Full => 16,
            Error::EnergyLow { .. } => 17,
            Error::Disarming => 18,
            Error::Closed => 19,
            Error::TrailFull => 20,
            Error::NoSuchLine => 21,
            Error::ReadsFull => 22,
            Error::ReadWaits(_) => 23,
            Error::NoSuchWrite { .. } => 24,
            Error::NoSuchRead => 25,
            Error::NoEvent { .. } => 28,
            Error::Room { .. } => 29,
            Error::NeedEnergy { .. } => 32,
            Error::SaveRunning => 33,
            Error::Unsettled => 34,
            Error::Spent => 35,
            Error::Stepped => 48,
            Error::Waiting => 49,
            Error::Turned => 50,
            Error::NoSave => 51,
            Error::Retry => 52,
            Error::SaveFault => 53,
            Error::Unsaved => 54,
            Error::Dark => 55,
            Error::Other(code) => code,
        }
    }
}

impl fmt::Display for Error {
    fn fmt(&self, f: &mut fmt::Formatter<'_>) -> fmt::Result {
        let mut words = [0; 80];
        // SAFETY: the buffer is as long as told
        let length = unsafe { sys::ph_text(self.code(), words.as_mut_ptr(), words.len()) };
        f.write_str(std::str::from_utf8(&words[..length.min(words.len())]).unwrap_or("?"))?;
        match *self {
            Error::EnergyLow { need, has } | Error::NeedEnergy { need, has } => write!(f, ": it needs {need} and has {has}"),
            Error::Size { wanted } => write!(f, ": {wanted} bytes are wanted"),
            Error::NoSuchWrite { accepted } => write!(f, ": {accepted} were accepted"),
            Error::File(kind) => write!(f, ": {kind}"),
            Error::NoEvent { number } => write!(f, ": number {number}"),
            Error::Room { wanted } => write!(f, ": {wanted} are wanted"),
            Error::Other(code) => write!(f, ": code {code}"),
            _ => Ok(()),
        }
    }
}

impl std::error::Error for Error {}
