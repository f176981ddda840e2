//! Whole lives on the bytes of a store, for tests and batches: no module stays open, and what is refused changes nothing.
//!
//! ```no_run
//! use panguhero::lives::{format, live, restore, store_length, Event};
//! # fn main() -> Result<(), panguhero::Error> {
//! let profile = include_bytes!("../../../examples/tiny.toml");
//! let mut store = vec![0; store_length(profile)?];
//! format(profile, &mut store)?;
//! let answers = live(profile, &mut store, 100_000, &[Event::Arm, Event::Write(3, [7; 64]), Event::Lose])?;
//! assert_eq!(answers.len(), 3);
//! assert_eq!(restore(profile, &store)?.lines[3], [7; 64]);
//! # Ok(())
//! # }
//! ```

use crate::{sys, Error, Line, Restored, Ticket};

/// What happens in a life.
#[derive(Clone, Copy, Debug, PartialEq, Eq)]
pub enum Event {
    /// A line is written.
    Write(u64, Line),
    /// A line is read.
    Read(u64),
    /// A read that waited is collected.
    Collect(Ticket),
    /// A channel may issue one command.
    Work(u64),
    /// The gauge is read.
    Sense,
    Arm,
    Disarm,
    /// A save of all accepted writes is begun.
    SaveBegin,
    /// The save that runs makes its coming step.
    SaveStep,
    /// Mains are lost.
    Lose,
}

/// The answer to an event: the numbers that the call of a module has, and the bytes that were read, else zeros.
#[derive(Clone, Copy, Debug, PartialEq, Eq)]
pub struct Answer {
    pub first: u64,
    pub second: u64,
    pub bytes: Line,
}

/// What a store restores to.
#[derive(Clone, Debug, PartialEq, Eq)]
pub struct Memory {
    pub restored: Restored,
    pub lines: Vec<Line>,
}

impl Event {
    fn in_numbers(&self) -> sys::Event {
        let (kind, first, second, data) = match *self {
            Event::Write(line, bytes) => (1, line, 0, bytes),
            Event::Read(line) => (2, line, 0, [0; 64]),
            Event::Collect(ticket) => (3, ticket.channel, ticket.number, [0; 64]),
            Event::Work(channel) => (4, channel, 0, [0; 64]),
            Event::Sense => (5, 0, 0, [0; 64]),
            Event::Arm => (6, 0, 0, [0; 64]),
            Event::Disarm => (7, 0, 0, [0; 64]),
            Event::SaveBegin => (8, 0, 0, [0; 64]),
            Event::SaveStep => (9, 0, 0, [0; 64]),
            Event::Lose => (10, 0, 0, [0; 64]),
        };
        sys::Event { kind, first, second, data }
    }
}

fn answer_of(answer: &sys::Answer) -> Result<Answer, Error> {
    let (first, second) = (answer.first, answer.second);
    Error::check(answer.code as u32, sys::Numbers { first, second })?;
    Ok(Answer {
        first,
        second,
        bytes: answer.data,
    })
}

/// How many bytes the store of a profile has.
pub fn store_length(profile: &[u8]) -> Result<usize, Error> {
    match format(profile, &mut []) {
        Err(Error::Size { wanted }) => Ok(wanted as usize),
        other => other.map(|()| 0),
    }
}

/// Makes the bytes a store of zero lines.
pub fn format(profile: &[u8], store: &mut [u8]) -> Result<(), Error> {
    let mut numbers = sys::Numbers::default();
    // SAFETY: both slices are as long as told, and no two of the arguments overlap
    let code = unsafe { sys::ph_format(profile.as_ptr(), profile.len(), store.as_mut_ptr(), store.len(), &mut numbers) };
    Error::check(code, numbers)
}

fn restore_into(profile: &[u8], store: &[u8], lines: &mut [Line]) -> Result<Restored, Error> {
    let mut numbers = sys::Numbers::default();
    // SAFETY: the slices are as long as told, and no two of the arguments overlap
    let code = unsafe {
        sys::ph_restore(
            profile.as_ptr(),
            profile.len(),
            store.as_ptr(),
            store.len(),
            lines.as_mut_ptr(),
            lines.len(),
            &mut numbers,
        )
    };
    Restored::of(code, numbers)
}

/// What the bytes of a store restore to.
pub fn restore(profile: &[u8], store: &[u8]) -> Result<Memory, Error> {
    let wanted = match restore_into(profile, store, &mut []) {
        Err(Error::Room { wanted }) => wanted as usize,
        other => {
            return other.map(|restored| Memory {
                restored,
                lines: Vec::new(),
            })
        }
    };
    let mut lines = vec![[0; 64]; wanted];
    let restored = restore_into(profile, store, &mut lines)?;
    Ok(Memory { restored, lines })
}

/// Restores the bytes of a store, and has a module live on them through these events, with a gauge at this level: what each was answered.
/// The bytes are those of its device at the end. Whatever a stop would have left at any moment restores to the memory after a first part
/// of the accepted writes.
pub fn live(profile: &[u8], store: &mut [u8], level: u64, events: &[Event]) -> Result<Vec<Result<Answer, Error>>, Error> {
    let events: Vec<sys::Event> = events.iter().map(Event::in_numbers).collect();
    let none = sys::Answer {
        code: 0,
        first: 0,
        second: 0,
        data: [0; 64],
    };
    let mut answers = vec![none; events.len()];
    let mut numbers = sys::Numbers::default();
    // SAFETY: the slices are as long as told, and no two of the arguments overlap
    let code = unsafe {
        sys::ph_live(
            profile.as_ptr(),
            profile.len(),
            store.as_mut_ptr(),
            store.len(),
            level,
            events.as_ptr(),
            events.len(),
            answers.as_mut_ptr(),
            answers.len(),
            &mut numbers,
        )
    };
    Error::check(code, numbers)?;
    Ok(answers.iter().map(answer_of).collect())
}
