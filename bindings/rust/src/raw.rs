//! The declarations of `storklocker.h` that are used here.

use std::os::raw::c_char;

pub const YES: u32 = 0;
pub const NO: u32 = 1;

#[repr(C)]
#[derive(Clone, Copy, Debug)]
pub struct Pair {
    pub module_name: *const u8,
    pub module_length: usize,
    pub name: *const u8,
    pub name_length: usize,
}

impl Pair {
    pub fn of((module, name): (&[u8], &[u8])) -> Pair {
        Pair {
            module_name: module.as_ptr(),
            module_length: module.len(),
            name: name.as_ptr(),
            name_length: name.len(),
        }
    }
}

#[repr(C)]
#[derive(Clone, Copy)]
pub struct Settings {
    pub size: u64,
    pub counted: u64,
    pub stack: u64,
    pub memo: u64,
    pub passed: u64,
    pub numbers: u64,
    pub old_strings: u32,
    pub row_memo: u32,
    pub large: u32,
    pub sorted: u32,
    pub levels: u32,
    pub weight: u32,
    pub work: u64,
    pub clash: u64,
    pub memory: u64,
    pub builds: u32,
    pub unused: u32,
}

#[repr(C)]
#[derive(Clone, Copy, Default)]
pub struct Verdict {
    pub status: u32,
    pub reason: u32,
    pub number: u32,
    pub has_pair: u32,
    pub at: u64,
    pub taken: u64,
    pub imports: u64,
    pub module_length: u64,
    pub name_length: u64,
    pub pickles: u64,
    pub levels: u32,
    pub weight: u32,
    pub work: u64,
    pub clash: u64,
    pub memory: u64,
}

/// `storklocker_check_pairs` and `storklocker_check_row`.
pub type Check = unsafe extern "C" fn(
    pairs: *const Pair,
    pair_count: usize,
    settings: *const Settings,
    pickle: *const u8,
    pickle_length: usize,
    room: *mut u8,
    room_length: usize,
    verdict: *mut Verdict,
) -> u32;

extern "C" {
    pub fn storklocker_version() -> *const c_char;
    pub fn storklocker_reason_text(reason: u32) -> *const c_char;
    pub fn storklocker_fault_text(fault: u32) -> *const c_char;
    pub fn storklocker_check_pairs(
        pairs: *const Pair,
        pair_count: usize,
        settings: *const Settings,
        pickle: *const u8,
        pickle_length: usize,
        room: *mut u8,
        room_length: usize,
        verdict: *mut Verdict,
    ) -> u32;
    pub fn storklocker_check_row(
        pairs: *const Pair,
        pair_count: usize,
        settings: *const Settings,
        pickles: *const u8,
        pickles_length: usize,
        room: *mut u8,
        room_length: usize,
        verdict: *mut Verdict,
    ) -> u32;
    pub fn storklocker_read_list(
        list: *const u8,
        list_length: usize,
        room: *mut u8,
        room_length: usize,
        limits: *mut Settings,
        wanted: *mut u64,
        verdict: *mut Verdict,
    ) -> u32;
    pub fn storklocker_list_told(
        list: *const u8,
        list_length: usize,
        room: *mut u8,
        room_length: usize,
        said: *mut [u32; 8],
        wanted: *mut u64,
        verdict: *mut Verdict,
    ) -> u32;
    pub fn storklocker_imports_loading(
        settings: *const Settings,
        pickle: *const u8,
        pickle_length: usize,
        room: *mut u8,
        room_length: usize,
        wanted: *mut u64,
        verdict: *mut Verdict,
    ) -> u32;
}
