//! The calls as C sees them. `tools/c_library --test` holds them to the library's exports.

#[repr(C)]
pub struct Handle {
    pub state: u64,
    pub module: *mut u8,
}

#[repr(C)]
#[derive(Default)]
pub struct Numbers {
    pub first: u64,
    pub second: u64,
}

pub const DONE: u32 = 0;
pub const SYNC: u32 = 26;
pub const NO_CHANGE: u32 = 27;

/// No change of a device has more bytes.
pub const CHANGE_BYTES: usize = 4096;

/// An opening on the bytes of a store.
pub type Open = unsafe extern "C" fn(*mut Handle, *const u8, usize, *const u8, usize, u32, *mut Numbers) -> u32;

/// An event of a whole life: which one, its numbers, and the bytes of a write.
#[repr(C)]
pub struct Event {
    pub kind: u64,
    pub first: u64,
    pub second: u64,
    pub data: [u8; 64],
}

/// Its answer: a code with its numbers, and the bytes that were read.
#[repr(C)]
#[derive(Clone)]
pub struct Answer {
    pub code: u64,
    pub first: u64,
    pub second: u64,
    pub data: [u8; 64],
}

extern "C" {
    pub fn ph_open_memory(handle: *mut Handle, profile: *const u8, profile_length: usize) -> u32;
    pub fn ph_open_store(
        handle: *mut Handle,
        profile: *const u8,
        profile_length: usize,
        bytes: *const u8,
        bytes_length: usize,
        format: u32,
        numbers: *mut Numbers,
    ) -> u32;
    pub fn ph_open_noted(
        handle: *mut Handle,
        profile: *const u8,
        profile_length: usize,
        bytes: *const u8,
        bytes_length: usize,
        format: u32,
        numbers: *mut Numbers,
    ) -> u32;
    pub fn ph_next_change(handle: *mut Handle, into: *mut u8, into_length: usize, numbers: *mut Numbers) -> u32;
    pub fn ph_close(handle: *mut Handle) -> u32;
    pub fn ph_write(handle: *mut Handle, line: u64, bytes: *const u8, bytes_length: usize, numbers: *mut Numbers) -> u32;
    pub fn ph_read(handle: *mut Handle, line: u64, wait: u64, into: *mut u8, into_length: usize, numbers: *mut Numbers) -> u32;
    pub fn ph_collect(handle: *mut Handle, channel: u64, number: u64, into: *mut u8, into_length: usize, numbers: *mut Numbers) -> u32;
    pub fn ph_work(handle: *mut Handle, numbers: *mut Numbers) -> u32;
    pub fn ph_mark(handle: *mut Handle, numbers: *mut Numbers) -> u32;
    pub fn ph_accepted(handle: *mut Handle, numbers: *mut Numbers) -> u32;
    pub fn ph_persist(handle: *mut Handle, number: u64, numbers: *mut Numbers) -> u32;
    pub fn ph_mode(handle: *mut Handle, numbers: *mut Numbers) -> u32;
    pub fn ph_set_energy(handle: *mut Handle, level: u64, numbers: *mut Numbers) -> u32;
    pub fn ph_sense(handle: *mut Handle, numbers: *mut Numbers) -> u32;
    pub fn ph_arm(handle: *mut Handle, numbers: *mut Numbers) -> u32;
    pub fn ph_disarm(handle: *mut Handle, numbers: *mut Numbers) -> u32;
    pub fn ph_save(handle: *mut Handle, numbers: *mut Numbers) -> u32;
    pub fn ph_save_step(handle: *mut Handle, numbers: *mut Numbers) -> u32;
    pub fn ph_power_loss(handle: *mut Handle, numbers: *mut Numbers) -> u32;
    pub fn ph_sizes(handle: *mut Handle, numbers: *mut Numbers) -> u32;
    pub fn ph_store_bytes(handle: *mut Handle, into: *mut u8, into_length: usize, numbers: *mut Numbers) -> u32;
    pub fn ph_stop_after(handle: *mut Handle, calls: u64, numbers: *mut Numbers) -> u32;
    pub fn ph_stopped(handle: *mut Handle, pick: u32, byte: u32, into: *mut u8, into_length: usize, numbers: *mut Numbers) -> u32;
    pub fn ph_format(profile: *const u8, profile_length: usize, store: *mut u8, store_length: usize, numbers: *mut Numbers) -> u32;
    pub fn ph_restore(
        profile: *const u8,
        profile_length: usize,
        store: *const u8,
        store_length: usize,
        lines: *mut [u8; 64],
        lines_length: usize,
        numbers: *mut Numbers,
    ) -> u32;
    pub fn ph_live(
        profile: *const u8,
        profile_length: usize,
        store: *mut u8,
        store_length: usize,
        level: u64,
        events: *const Event,
        events_length: usize,
        answers: *mut Answer,
        answers_length: usize,
        numbers: *mut Numbers,
    ) -> u32;
    pub fn ph_text(code: u32, into: *mut u8, into_length: usize) -> usize;
}
