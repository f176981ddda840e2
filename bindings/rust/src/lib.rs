//! A battery-backed memory module (NVDIMM-N): lines of 64 bytes that survive a loss of power, once they are persistent.
//!
//! ```no_run
//! # fn main() -> Result<(), panguhero::Error> {
//! let mut module = panguhero::Module::in_memory(include_bytes!("../../../examples/tiny.toml"))?;
//! let write = module.write(3, &[7; 64])?;
//! module.persist(write.number)?;
//! assert_eq!(module.read(3)?, [7; 64]);
//! # Ok(())
//! # }
//! ```
//!
//! Behind it is the archive of `tools/c_library`, whose calls are proved up to the boundary; `docs/C.md` says what that means. No function
//! here needs `unsafe` of its caller, and dropping a [`Module`] closes it.

mod error;
pub mod lives;
mod store_file;
mod sys;

pub use error::Error;
use std::{fs::File, marker::PhantomData};

/// The bytes of a line, the least that is written or read.
pub type Line = [u8; 64];

/// A write that was accepted.
#[derive(Clone, Copy, Debug, PartialEq, Eq)]
pub struct Accepted {
    /// Its place among the accepted writes, from 0 on.
    pub number: u64,
    /// How many writes are persistent: exactly those with a number below it.
    pub mark: u64,
}

/// A read that waits for a command of its channel.
#[derive(Clone, Copy, Debug, PartialEq, Eq)]
pub struct Ticket {
    pub channel: u64,
    /// Its number among the reads of the channel that waited.
    pub number: u64,
}

/// An image that was saved or restored.
#[derive(Clone, Copy, Debug, PartialEq, Eq)]
pub struct Image {
    pub generation: u64,
    /// How many writes it holds.
    pub count: u64,
}

/// What a store restored to.
#[derive(Clone, Copy, Debug, PartialEq, Eq)]
pub enum Restored {
    /// Every write that was acknowledged persistent is there.
    Complete(Image),
    /// Writes behind the image's count may be missing, though they were acknowledged.
    PossibleLoss(Image),
}

impl Restored {
    fn of(code: u32, numbers: sys::Numbers) -> Result<Restored, Error> {
        let image = Image {
            generation: numbers.first,
            count: numbers.second,
        };
        if code == error::POSSIBLE_LOSS {
            return Ok(Restored::PossibleLoss(image));
        }
        Error::check(code, numbers)?;
        Ok(Restored::Complete(image))
    }
}

/// What a module does with writes, and which of them are persistent.
#[derive(Clone, Copy, Debug, PartialEq, Eq)]
pub enum Mode {
    /// Writes are accepted. Those of the last finished save are persistent.
    Disarmed,
    /// Writes are accepted where there is the energy for their save. All are persistent.
    Armed,
    /// Writes are refused while a save of all accepted ones runs.
    Disarming,
    /// The device failed in that save, which can be begun again.
    Stranded,
    /// Mains were lost, and not all accepted writes were saved.
    Closing,
    /// Mains were lost, and all accepted writes were saved.
    Saved,
}

/// What a step of a save came to.
#[derive(Clone, Copy, Debug, PartialEq, Eq)]
pub enum Step {
    /// It was made, and others are to come.
    Stepped,
    /// A write that the page is to have isn't in its array yet.
    Waiting,
    /// The device failed; the step is to be made again.
    Retry,
    /// The gauge was low, so that the module is disarming.
    Turned,
    /// The save is done.
    Saved(Image),
}

/// Which bytes a stop leaves where the device hadn't settled them.
#[derive(Clone, Copy, Debug, PartialEq, Eq)]
pub enum Pick {
    /// Those of the last sync.
    Old,
    /// Those of the last write.
    New,
    /// This byte.
    Torn(u8),
}

/// What to do with a device on which nothing is saved.
#[derive(Clone, Copy, Debug, PartialEq, Eq)]
pub enum IfEmpty {
    Refuse,
    Format,
}

/// A module with its save device, in memory or in a file, and its energy gauge. It stays on the thread that opened it.
pub struct Module {
    handle: sys::Handle,
    // the file on which the device's changes are made, before a call is answered
    file: Option<File>,
    one_thread: PhantomData<*mut ()>,
}

impl Module {
    /// Opens a module of a profile (TOML) on a new device, formatted, with a gauge that shows 0.
    pub fn in_memory(profile: &[u8]) -> Result<Module, Error> {
        let mut module = Module::closed();
        // SAFETY: the handle is a closed one, and the profile is as long as told
        let code = unsafe { sys::ph_open_memory(&mut module.handle, profile.as_ptr(), profile.len()) };
        Error::check(code, sys::Numbers::default())?;
        Ok(module)
    }

    /// Opens a module on a device with these bytes, and restores what they hold. Where it formats them, it tells the image of no write.
    pub fn on_store(profile: &[u8], store: &[u8], if_empty: IfEmpty) -> Result<(Module, Restored), Error> {
        Module::opened(sys::ph_open_store, profile, store, if_empty)
    }

    /// Opens a module on a device in this file, which has to be open for reading and writing, and restores what it holds. Where nothing is
    /// saved it formats it, if that is wanted, and fills an empty file first. The file is locked meanwhile; no one else may write it. Each
    /// call makes the device's changes on the file before it is answered; one that fails there is [`Error::File`], and closes the module.
    pub fn on_file(profile: &[u8], file: File, if_empty: IfEmpty) -> Result<(Module, Restored), Error> {
        // no profile has a device of no bytes, so this tells how many it has, or what else is wrong
        let wanted = match Module::opened(sys::ph_open_noted, profile, &[], if_empty) {
            Err(Error::Size { wanted }) => wanted,
            other => return other,
        };
        let store = store_file::bytes_of(&file, wanted, if_empty)?;
        let (mut module, restored) = Module::opened(sys::ph_open_noted, profile, &store, if_empty)?;
        module.file = Some(file);
        module.settle()?;
        Ok((module, restored))
    }

    fn opened(open: sys::Open, profile: &[u8], store: &[u8], if_empty: IfEmpty) -> Result<(Module, Restored), Error> {
        let mut module = Module::closed();
        let mut numbers = sys::Numbers::default();
        let format = u32::from(if_empty == IfEmpty::Format);
        // SAFETY: the handle is a closed one, and both slices are as long as told
        let code = unsafe {
            open(
                &mut module.handle,
                profile.as_ptr(),
                profile.len(),
                store.as_ptr(),
                store.len(),
                format,
                &mut numbers,
            )
        };
        Ok((module, Restored::of(code, numbers)?))
    }

    /// Writes a line.
    pub fn write(&mut self, line: u64, bytes: &Line) -> Result<Accepted, Error> {
        // SAFETY: as `call` says; the bytes are as long as told
        let told = self.call(|handle, numbers| unsafe { sys::ph_write(handle, line, bytes.as_ptr(), bytes.len(), numbers) })?;
        Ok(Accepted {
            number: told.first,
            mark: told.second,
        })
    }

    /// Reads a line of the memory after all accepted writes. A read whose bytes don't come within 64 turns of its channel is
    /// [`Error::ReadWaits`], and stays open for [`Module::collect`].
    pub fn read(&mut self, line: u64) -> Result<Line, Error> {
        self.read_within(line, 64)
    }

    /// The same within so many turns; 0 has the read answered at once.
    pub fn read_within(&mut self, line: u64, turns: u64) -> Result<Line, Error> {
        let mut into = [0; 64];
        // SAFETY: as `call` says; the buffer is as long as told
        self.call(|handle, numbers| unsafe { sys::ph_read(handle, line, turns, into.as_mut_ptr(), into.len(), numbers) })?;
        Ok(into)
    }

    /// The bytes of a read that waited, of the memory as it was when it was read. It is [`Error::ReadWaits`] again where they are
    /// still to come; [`Module::work`] brings them nearer.
    pub fn collect(&mut self, ticket: Ticket) -> Result<Line, Error> {
        let mut into = [0; 64];
        let Ticket { channel, number } = ticket;
        // SAFETY: as `call` says; the buffer is as long as told
        self.call(|handle, numbers| unsafe { sys::ph_collect(handle, channel, number, into.as_mut_ptr(), into.len(), numbers) })?;
        Ok(into)
    }

    /// Issues one command of each channel, where it has one, and answers how many were issued. It makes room behind [`Error::Full`].
    pub fn work(&mut self) -> Result<u64, Error> {
        // SAFETY: as `call` says
        Ok(self.call(|handle, numbers| unsafe { sys::ph_work(handle, numbers) })?.first)
    }

    /// How many writes are persistent: exactly those with a number below it.
    pub fn mark(&mut self) -> Result<u64, Error> {
        // SAFETY: as `call` says
        Ok(self.call(|handle, numbers| unsafe { sys::ph_mark(handle, numbers) })?.first)
    }

    /// How many writes were accepted.
    pub fn accepted(&mut self) -> Result<u64, Error> {
        // SAFETY: as `call` says
        Ok(self.call(|handle, numbers| unsafe { sys::ph_accepted(handle, numbers) })?.first)
    }

    /// Returns once the write of this number is persistent, and answers the mark. It saves where that is needed.
    pub fn persist(&mut self, number: u64) -> Result<u64, Error> {
        // SAFETY: as `call` says
        Ok(self
            .call(|handle, numbers| unsafe { sys::ph_persist(handle, number, numbers) })?
            .first)
    }

    /// The mode.
    pub fn mode(&mut self) -> Result<Mode, Error> {
        // SAFETY: as `call` says
        let told = self.call(|handle, numbers| unsafe { sys::ph_mode(handle, numbers) })?;
        Ok(match told.first {
            0 => Mode::Disarmed,
            1 => Mode::Armed,
            2 => Mode::Disarming,
            3 => Mode::Stranded,
            4 => Mode::Closing,
            _ => Mode::Saved,
        })
    }

    /// Sets the level of the gauge, which the module reads. It answers the reading.
    pub fn set_energy(&mut self, level: u64) -> Result<u64, Error> {
        // SAFETY: as `call` says
        Ok(self
            .call(|handle, numbers| unsafe { sys::ph_set_energy(handle, level, numbers) })?
            .first)
    }

    /// The module reads the gauge as it is.
    pub fn sense(&mut self) -> Result<u64, Error> {
        // SAFETY: as `call` says
        Ok(self.call(|handle, numbers| unsafe { sys::ph_sense(handle, numbers) })?.first)
    }

    /// Arms: from then on each write is persistent once it is accepted.
    pub fn arm(&mut self) -> Result<(), Error> {
        // SAFETY: as `call` says
        self.call(|handle, numbers| unsafe { sys::ph_arm(handle, numbers) }).map(drop)
    }

    /// Begins to disarm.
    pub fn disarm(&mut self) -> Result<(), Error> {
        // SAFETY: as `call` says
        self.call(|handle, numbers| unsafe { sys::ph_disarm(handle, numbers) }).map(drop)
    }

    /// Saves all accepted writes, or what is left of a save that runs.
    pub fn save(&mut self) -> Result<Image, Error> {
        // SAFETY: as `call` says
        let told = self.call(|handle, numbers| unsafe { sys::ph_save(handle, numbers) })?;
        Ok(Image {
            generation: told.first,
            count: told.second,
        })
    }

    /// Makes one step of a save, which is begun where none runs.
    pub fn save_step(&mut self) -> Result<Step, Error> {
        // SAFETY: as `call` says
        match self.call(|handle, numbers| unsafe { sys::ph_save_step(handle, numbers) }) {
            Ok(told) => Ok(Step::Saved(Image {
                generation: told.first,
                count: told.second,
            })),
            Err(Error::Stepped) => Ok(Step::Stepped),
            Err(Error::Waiting) => Ok(Step::Waiting),
            Err(Error::Retry) => Ok(Step::Retry),
            Err(Error::Turned) => Ok(Step::Turned),
            Err(error) => Err(error),
        }
    }

    /// Mains are lost: an armed module saves its accepted writes on backup.
    pub fn power_loss(&mut self) -> Result<Image, Error> {
        // SAFETY: as `call` says
        let told = self.call(|handle, numbers| unsafe { sys::ph_power_loss(handle, numbers) })?;
        Ok(Image {
            generation: told.first,
            count: told.second,
        })
    }

    /// How many lines the module has.
    pub fn lines(&mut self) -> Result<u64, Error> {
        // SAFETY: as `call` says
        Ok(self.call(|handle, numbers| unsafe { sys::ph_sizes(handle, numbers) })?.first)
    }

    /// How many bytes its device has.
    pub fn store_length(&mut self) -> Result<usize, Error> {
        // SAFETY: as `call` says
        Ok(self.call(|handle, numbers| unsafe { sys::ph_sizes(handle, numbers) })?.second as usize)
    }

    /// The bytes that a device in memory holds. One in a file is [`Error::InFile`], as by [`Module::stopped`].
    pub fn store_bytes(&mut self) -> Result<Vec<u8>, Error> {
        let mut store = vec![0; self.store_length()?];
        // SAFETY: as `call` says; the buffer is as long as told
        self.call(|handle, numbers| unsafe { sys::ph_store_bytes(handle, store.as_mut_ptr(), store.len(), numbers) })?;
        Ok(store)
    }

    /// From now on the device passes so many calls and fails each later one.
    pub fn stop_after(&mut self, calls: u64) -> Result<(), Error> {
        // SAFETY: as `call` says
        self.call(|handle, numbers| unsafe { sys::ph_stop_after(handle, calls, numbers) })
            .map(drop)
    }

    /// Stops the module here, as a loss of power that nothing saves, and answers the bytes that the stop leaves of the device.
    pub fn stopped(mut self, pick: Pick) -> Result<Vec<u8>, Error> {
        let mut store = vec![0; self.store_length()?];
        let (pick, byte) = match pick {
            Pick::Old => (0, 0),
            Pick::New => (1, 0),
            Pick::Torn(byte) => (2, u32::from(byte)),
        };
        // SAFETY: as `call` says; the buffer is as long as told
        self.call(|handle, numbers| unsafe { sys::ph_stopped(handle, pick, byte, store.as_mut_ptr(), store.len(), numbers) })?;
        Ok(store)
    }

    // Makes the device's changes on the file, if it has one. Behind one that fails the module is closed, so that none is made later: the
    // file has what a stop left.
    fn settle(&mut self) -> Result<(), Error> {
        let Some(file) = &self.file else {
            return Ok(());
        };
        let mut bytes = [0; sys::CHANGE_BYTES];
        loop {
            let mut told = sys::Numbers::default();
            // SAFETY: the handle is this module's alone, and the buffer is as long as told
            let code = unsafe { sys::ph_next_change(&mut self.handle, bytes.as_mut_ptr(), bytes.len(), &mut told) };
            let made = match code {
                sys::DONE => store_file::write(file, told.first, &bytes[..told.second as usize]),
                sys::SYNC => file.sync_data(),
                sys::NO_CHANGE => return Ok(()),
                code => return Err(Error::of(code, told)),
            };
            if let Err(error) = made {
                // SAFETY: the handle is this module's alone
                unsafe { sys::ph_close(&mut self.handle) };
                return Err(Error::File(error.kind()));
            }
        }
    }

    // One call, on a handle that this module alone has, by `&mut`: so no two calls have it at once, and its numbers are apart from it.
    fn call(&mut self, call: impl FnOnce(&mut sys::Handle, &mut sys::Numbers) -> u32) -> Result<sys::Numbers, Error> {
        let mut numbers = sys::Numbers::default();
        let code = call(&mut self.handle, &mut numbers);
        self.settle()?;
        match code {
            sys::DONE => Ok(numbers),
            code => Err(Error::of(code, numbers)),
        }
    }

    fn closed() -> Module {
        Module {
            handle: sys::Handle {
                state: 0,
                module: std::ptr::null_mut(),
            },
            file: None,
            one_thread: PhantomData,
        }
    }
}

impl Drop for Module {
    fn drop(&mut self) {
        // SAFETY: the handle is this module's alone; a closed one is answered by a code
        unsafe { sys::ph_close(&mut self.handle) };
    }
}
