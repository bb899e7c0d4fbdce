//! `bfdd.h` as it stands: its structs, its numbers and its calls, by the header's names. The header says what each means, and what
//! the caller owes. The crate `bfdd` has the same without `unsafe`.

#![no_std]
#![allow(non_camel_case_types)]

use core::ffi::{c_char, c_void};
use core::mem::size_of;

/// Numbers of one kind, under the header's names.
macro_rules! numbers {
    ($($name:ident = $value:literal),* $(,)?) => { $(pub const $name: u32 = $value;)* };
}

numbers! {
    BFDD_DONE = 0, BFDD_CLOSED = 1, BFDD_MEMORY = 2, BFDD_RANGE = 3, BFDD_END = 4, BFDD_TEXT = 5, BFDD_EVENTS = 6,
    BFDD_TAKEN_DISCR = 7, BFDD_TAKEN_ADDRESSES = 8, BFDD_FULL = 9, BFDD_NOT_FOUND = 10, BFDD_SIZE = 11,
}

numbers! {
    BFDD_NOT_ASCII = 1, BFDD_TOO_LONG = 2, BFDD_UNKNOWN_WORD = 3, BFDD_FIELD_COUNT = 4, BFDD_BAD_NUMBER = 5, BFDD_OUT_OF_RANGE = 6,
    BFDD_BAD_HEX = 7, BFDD_BAD_ADDRESS = 8, BFDD_SAME_DISCR = 9, BFDD_SAME_ADDRESSES = 10, BFDD_NO_SUCH_SESSION = 11, BFDD_ORDER = 12,
    BFDD_MISSING_END = 13, BFDD_TOO_MANY = 14, BFDD_SAME_KEY = 16,
}

numbers! { BFDD_SINGLE_HOP = 1, BFDD_MULTIHOP = 2, BFDD_INITIATOR = 3, BFDD_HEAD = 4, BFDD_TAIL = 5 }

numbers! { BFDD_PORT_SINGLE = 1, BFDD_PORT_MULTI = 2, BFDD_PORT_ECHO = 3, BFDD_PORT_SBFD = 4, BFDD_PORT_ANSWER = 5 }

numbers! {
    BFDD_DISABLE = 1, BFDD_ENABLE = 2, BFDD_RESET = 3, BFDD_PATH = 4, BFDD_TX = 5, BFDD_RX = 6, BFDD_MULT = 7, BFDD_DEMAND = 8,
    BFDD_ECHO = 9, BFDD_KEY = 10,
}

numbers! { BFDD_HANDLED = 0, BFDD_TICKED = 1, BFDD_DROPPED = 2, BFDD_REFUSED = 3, BFDD_SHOWN = 4 }

numbers! {
    BFDD_DROP_SHORT = 1, BFDD_DROP_VERSION = 2, BFDD_DROP_LENGTH_MIN = 3, BFDD_DROP_LENGTH_OVER = 4, BFDD_DROP_DETECT_MULT = 5,
    BFDD_DROP_MULTIPOINT = 6, BFDD_DROP_MY_DISCR = 7, BFDD_DROP_YOUR_UNKNOWN = 8, BFDD_DROP_YOUR_ZERO_STATE = 9,
    BFDD_DROP_NO_SESSION = 10, BFDD_DROP_TTL = 11, BFDD_DROP_AUTH_UNEXPECTED = 12, BFDD_DROP_AUTH_MISSING = 13,
    BFDD_DROP_AUTH_TYPE = 14, BFDD_DROP_AUTH_KEY = 15, BFDD_DROP_AUTH_LEN = 16, BFDD_DROP_AUTH_SEQ = 17, BFDD_DROP_AUTH_DIGEST = 18,
    BFDD_DROP_ADMIN_DOWN = 19, BFDD_DROP_NOT_DEMAND = 20, BFDD_DROP_MULTIPOINT_YOUR = 21, BFDD_DROP_NO_TAIL = 22,
    BFDD_DROP_ECHO_FORM = 23, BFDD_DROP_ECHO_STALE = 24,
}

numbers! { BFDD_POLL_BUSY = 1, BFDD_WRONG_STATE = 2, BFDD_VALUE_OUT_OF_RANGE = 3, BFDD_WRONG_KIND = 4, BFDD_UNKNOWN_SESSION = 5 }

numbers! { BFDD_ADMIN_DOWN = 0, BFDD_DOWN = 1, BFDD_INIT = 2, BFDD_UP = 3 }

numbers! { BFDD_CHANGED = 1, BFDD_SENT = 2 }

numbers! { BFDD_MANY = 64 }

numbers! {
    BFDD_NAME_CODE = 1, BFDD_NAME_FAULT = 2, BFDD_NAME_DROP = 3, BFDD_NAME_REFUSAL = 4, BFDD_NAME_STATE = 5,
    BFDD_NAME_DIAGNOSTIC = 6, BFDD_NAME_OUTPUT = 7,
}

/// Structs of the header, with the size that each has there.
macro_rules! structs {
    (@size $it:ident size $($others:ident)*) => { $it.size = size_of::<Self>() as u32; };
    (@size $it:ident $($fields:ident)*) => {};
    ($($name:ident: $size:literal { $($field:ident: $type:ty),* $(,)? })*) => { $(
        #[repr(C)]
        #[derive(Clone, Copy, Debug)]
        pub struct $name {
            $(pub $field: $type,)*
        }

        impl Default for $name {
            /// All zeros but for the size with which some begin.
            #[allow(unused_mut)]
            fn default() -> Self {
                // SAFETY: the fields are integers, arrays of integers, and pointers that are set before a call.
                let mut it: Self = unsafe { core::mem::zeroed() };
                structs!(@size it $($field)*);
                it
            }
        }

        const _: () = assert!(size_of::<$name>() == $size);
    )* };
}

structs! {
    bfdd_address: 20 { family: u32, bytes: [u8; 16] }

    bfdd_complaint: 16 { size: u32, fault: u32, line: u64 }

    bfdd_session: 116 {
        size: u32, kind: u32, discr: u32, other: u32, iface: u32, local: bfdd_address, remote: bfdd_address, active: u32, tx: u32,
        rx: u32, mult: u32, echo: u32, seed: u32, auth: u32, key_id: u32, key_len: u32, key: [u8; 20],
    }

    bfdd_packet: 64 {
        size: u32, port: u32, moment: u64, iface: u32, sport: u16, ttl: u8, src: bfdd_address, dst: bfdd_address,
    }

    bfdd_answered: 64 {
        size: u32, kind: u32, code: u32, name: [u8; 20], discr: u32, state: u8, diag: u8, remote_state: u8, poll: u8, remote_discr: u32,
        adv_tx: u32, used_tx: u32, used_rx: u32, detect: u64,
    }

    bfdd_session_state: 312 {
        size: u32, discr: u32, state: u8, diag: u8, remote_state: u8, poll: u8, remote_discr: u32, adv_tx: u32, used_tx: u32,
        used_rx: u32, peer_tx: u32, peer_rx: u32, peer_echo: u32, peer_mult: u8, peer_diag: u8, peer_demand: u8, detect: u64,
        detect_end: u64, heard: u64, changed: u64, received: u64, sent: u64, ups: u64, downs: u64, dropped: [u64; 25],
    }

    bfdd_output: 120 {
        size: u32, kind: u32, discr: u32, was: u8, state: u8, diag: u8, ttl: u8, iface: u32, sport: u16, dport: u16,
        src: bfdd_address, dst: bfdd_address, len: u32, bytes: [u8; 52],
    }

    bfdd_arrival: 80 { packet: bfdd_packet, payload: *const u8, length: usize }

    bfdd_text: 16 { bytes: *const c_char, length: usize }
}

/// A handle. It can't be copied, and may be moved.
#[repr(C)]
#[derive(Debug)]
pub struct bfdd_handle {
    kept: *mut c_void,
    is_open: bool,
}

pub const BFDD_HANDLE_INIT: bfdd_handle = bfdd_handle { kept: core::ptr::null_mut(), is_open: false };

extern "C" {
    pub fn bfdd_open(handle: *mut bfdd_handle, text: *const u8, length: usize, complaint: *mut bfdd_complaint) -> u32;
    pub fn bfdd_open_session(handle: *mut bfdd_handle, session: *const bfdd_session) -> u32;
    pub fn bfdd_add(handle: *mut bfdd_handle, session: *const bfdd_session) -> u32;
    pub fn bfdd_remove(handle: *mut bfdd_handle, discr: u32) -> u32;
    pub fn bfdd_add_reflector(handle: *mut bfdd_handle, discr: u32, rx: u32, up: u32) -> u32;
    pub fn bfdd_remove_reflector(handle: *mut bfdd_handle, discr: u32) -> u32;
    pub fn bfdd_close(handle: *mut bfdd_handle);
    pub fn bfdd_receive(handle: *mut bfdd_handle, packet: *const bfdd_packet, payload: *const u8, length: usize) -> u32;
    pub fn bfdd_tick(handle: *mut bfdd_handle, ms: u64) -> u32;
    pub fn bfdd_command(handle: *mut bfdd_handle, moment: u64, discr: u32, command: u32, value: u64) -> u32;
    pub fn bfdd_show(handle: *mut bfdd_handle, moment: u64, discr: u32) -> u32;
    pub fn bfdd_answer(handle: *mut bfdd_handle, answer: *mut bfdd_answered) -> u32;
    pub fn bfdd_next(handle: *mut bfdd_handle, output: *mut bfdd_output) -> u32;
    pub fn bfdd_due(handle: *mut bfdd_handle, ms: *mut u64) -> u32;
    pub fn bfdd_state(handle: *mut bfdd_handle, discr: u32, state: *mut bfdd_session_state) -> u32;
    pub fn bfdd_packets(
        handle: *mut bfdd_handle,
        arrivals: *const bfdd_arrival,
        count: usize,
        answers: *mut bfdd_answered,
        places: usize,
        handled: *mut usize,
    ) -> u32;
    pub fn bfdd_outputs(handle: *mut bfdd_handle, places: *mut bfdd_output, count: usize, read: *mut usize) -> u32;
    pub fn bfdd_find_name(named: u32, number: u32, text: *mut bfdd_text) -> u32;
    pub fn bfdd_version() -> u32;
}
