//! The file of a device: it is filled where it is empty, read whole, and written as the device's changes say.

use crate::{Error, IfEmpty};
use std::fs::{File, TryLockError};
use std::io::{self, ErrorKind};
use std::os::unix::fs::FileExt;

impl From<io::Error> for Error {
    fn from(error: io::Error) -> Error {
        Error::File(error.kind())
    }
}

/// Writes bytes from a place on.
pub(crate) fn write(file: &File, at: u64, bytes: &[u8]) -> io::Result<()> {
    file.write_all_at(bytes, at)
}

// Writes so many zeros to an empty file, or leaves it empty.
fn fill(file: &File, length: u64) -> io::Result<()> {
    let filled = file.write_all_at(&vec![0; length as usize], 0).and_then(|()| file.sync_all());
    if filled.is_err() {
        file.set_len(0)?;
    }
    filled
}

/// The bytes of a file, all of them durable: it is a regular one, open for both, which is locked, and has so many.
pub(crate) fn bytes_of(file: &File, wanted: u64, if_empty: IfEmpty) -> Result<Vec<u8>, Error> {
    if !file.metadata()?.is_file() {
        return Err(Error::File(ErrorKind::InvalidInput));
    }
    // nothing is written, and a file that isn't open for that is told
    file.write_at(&[], 0)?;
    match file.try_lock() {
        Ok(()) => {}
        Err(TryLockError::WouldBlock) => return Err(Error::File(ErrorKind::WouldBlock)),
        Err(TryLockError::Error(error)) => return Err(error.into()),
    }
    file.sync_all()?;
    if file.metadata()?.len() == 0 && if_empty == IfEmpty::Format {
        fill(file, wanted)?;
    }
    if file.metadata()?.len() != wanted {
        return Err(Error::Size { wanted });
    }
    let mut bytes = vec![0; wanted as usize];
    file.read_exact_at(&mut bytes, 0)?;
    Ok(bytes)
}
