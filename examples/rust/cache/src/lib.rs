//! A key-value cache on the lines of a battery-backed memory module. [`Cache::put`] answers once the entry is persistent: whatever stops
//! the machine afterwards, a cache that is opened on what is left has the entry.
//!
//! An entry is one line: the lengths of its key and its value, and their bytes. A line is written whole or not at all, so an entry is
//! never torn. An entry lies at the line of its key's hash, or at the first free line behind it.

use panguhero::{Error, IfEmpty, Line, Module, Pick, Restored};
use std::fmt;
use std::fs::File;

/// The most bytes of a key and its value together.
pub const MOST_BYTES: usize = 62;

/// Why an entry isn't put.
#[derive(Debug, PartialEq, Eq)]
pub enum PutError {
    /// The key is empty, or the key and the value are longer than a line.
    Length,
    /// Each line has an entry.
    Full,
    Module(Error),
}

impl From<Error> for PutError {
    fn from(error: Error) -> PutError {
        PutError::Module(error)
    }
}

impl fmt::Display for PutError {
    fn fmt(&self, f: &mut fmt::Formatter<'_>) -> fmt::Result {
        match self {
            PutError::Length => write!(f, "a key has a byte at least, and with its value {MOST_BYTES} at most"),
            PutError::Full => f.write_str("the cache is full"),
            PutError::Module(error) => error.fmt(f),
        }
    }
}

impl std::error::Error for PutError {}

/// A cache on a module.
pub struct Cache {
    module: Module,
    lines: u64,
}

// An entry as a line, and back. A line of zeros is free.
fn line_of(key: &[u8], value: &[u8]) -> Line {
    let mut line = [0; 64];
    line[0] = key.len() as u8;
    line[1] = value.len() as u8;
    line[2..2 + key.len()].copy_from_slice(key);
    line[2 + key.len()..2 + key.len() + value.len()].copy_from_slice(value);
    line
}

fn entry_of(line: &Line) -> (&[u8], &[u8]) {
    let (key, value) = (usize::from(line[0]), usize::from(line[1]));
    (&line[2..2 + key], &line[2 + key..2 + key + value])
}

impl Cache {
    /// An empty cache.
    pub fn new(profile: &[u8]) -> Result<Cache, Error> {
        Cache::over(Module::in_memory(profile)?)
    }

    /// The cache that a store holds, or an empty one where the store holds nothing.
    pub fn open(profile: &[u8], store: &[u8]) -> Result<(Cache, Restored), Error> {
        let (module, restored) = Module::on_store(profile, store, IfEmpty::Format)?;
        Ok((Cache::over(module)?, restored))
    }

    /// The same of a store in a file: what stands there is what a stop left, whenever it came.
    pub fn on_file(profile: &[u8], file: File) -> Result<(Cache, Restored), Error> {
        let (module, restored) = Module::on_file(profile, file, IfEmpty::Format)?;
        Ok((Cache::over(module)?, restored))
    }

    fn over(mut module: Module) -> Result<Cache, Error> {
        let lines = module.lines()?;
        Ok(Cache { module, lines })
    }

    // A line of the module, also where its bytes come with a later command.
    fn line(&mut self, at: u64) -> Result<Line, Error> {
        let mut found = self.module.read(at);
        while let Err(Error::ReadWaits(ticket)) = found {
            self.module.work()?;
            found = self.module.collect(ticket);
        }
        found
    }

    // The line of a key: the one that has it, or the first free one where it would be put.
    fn line_of_key(&mut self, key: &[u8]) -> Result<Option<(u64, Line)>, Error> {
        let hash = key.iter().fold(0xcbf2_9ce4_8422_2325, |hash: u64, byte| {
            (hash ^ u64::from(*byte)).wrapping_mul(0x100_0000_01b3)
        });
        for step in 0..self.lines {
            let at = (hash % self.lines + step) % self.lines;
            let line = self.line(at)?;
            if line[0] == 0 || entry_of(&line).0 == key {
                return Ok(Some((at, line)));
            }
        }
        Ok(None)
    }

    /// The value of a key.
    pub fn get(&mut self, key: &[u8]) -> Result<Option<Vec<u8>>, Error> {
        let found = self.line_of_key(key)?;
        Ok(found.filter(|(_, line)| line[0] != 0).map(|(_, line)| entry_of(&line).1.to_vec()))
    }

    /// Puts the value of a key. It answers once the entry is persistent.
    pub fn put(&mut self, key: &[u8], value: &[u8]) -> Result<(), PutError> {
        if key.is_empty() || key.len() + value.len() > MOST_BYTES {
            return Err(PutError::Length);
        }
        let (at, _) = self.line_of_key(key)?.ok_or(PutError::Full)?;
        let written = self.module.write(at, &line_of(key, value))?;
        self.module.persist(written.number)?;
        Ok(())
    }

    /// The bytes that the device holds.
    pub fn store_bytes(&mut self) -> Result<Vec<u8>, Error> {
        self.module.store_bytes()
    }

    /// From now on the device passes so many calls and fails each later one.
    pub fn stop_after(&mut self, calls: u64) -> Result<(), Error> {
        self.module.stop_after(calls)
    }

    /// Stops the machine here, and answers what that leaves of the device.
    pub fn stopped(self, pick: Pick) -> Result<Vec<u8>, Error> {
        self.module.stopped(pick)
    }
}
