//! What include/faz_line.h declares. It is written by bindings/declare-line.
#![allow(dead_code, missing_docs)]
use std::ffi::{c_char, c_void};

pub const KEY: usize = 32;
pub const SIGNAL: usize = 1024;
pub const RELAYS: usize = 8;

// faz_line_way
pub const NO_WAY: u32 = 0;
pub const LAN: u32 = 1;
pub const DIRECT: u32 = 2;
pub const RELAYED: u32 = 3;

// faz_line_stage
pub const LOOKING: u32 = 0;
pub const UP: u32 = 1;
pub const SILENT: u32 = 2;
pub const BLOCKED: u32 = 3;

#[repr(C)]
#[derive(Clone, Copy)]
pub struct Keys {
    pub open: [u8; 32],
    pub secret: [u8; 32],
}

#[repr(C)]
#[derive(Clone, Copy)]
pub struct Relay {
    pub address: *const c_char,
    pub port: u16,
    pub user: *const c_char,
    pub password: *const c_char,
    pub by_tcp: bool,
}

#[repr(C)]
#[derive(Clone, Copy)]
pub struct Settings {
    pub me: u32,
    pub other: u32,
    pub keys: *mut Keys,
    pub their: *const u8,
    pub stun: *const c_char,
    pub stun_port: u16,
    pub relays: [Relay; 8],
    pub relay_count: u32,
    pub relay_only: bool,
    pub any_sender: bool,
}

#[repr(C)]
#[derive(Clone, Copy)]
pub struct State {
    pub stage: u32,
    pub way: u32,
    pub generation: u32,
    pub silence: u32,
    pub sent: u64,
    pub received: u64,
    pub forged: u64,
    pub again: u64,
    pub misnamed: u64,
    pub dropped: u64,
}

extern "C" {
    pub fn faz_line_draw(keys: *mut Keys) -> bool;
    pub fn faz_line_open(settings: *const Settings, why: *mut *const c_char) -> *mut c_void;
    pub fn faz_line_close(line: *mut c_void);
    pub fn faz_line_turn(line: *mut c_void, now: u32);
    pub fn faz_line_relays(line: *mut c_void, relays: *const Relay, count: u32) -> bool;
    pub fn faz_line_signal(line: *mut c_void, out: *mut u8, room: usize, length: *mut usize) -> bool;
    pub fn faz_line_signalled(line: *mut c_void, bytes: *const u8, length: usize) -> bool;
    pub fn faz_line_send(line: *mut c_void, bytes: *const u8, length: usize) -> bool;
    pub fn faz_line_receive(line: *mut c_void, out: *mut u8, room: usize, length: *mut usize) -> bool;
    pub fn faz_line_look(line: *const c_void, state: *mut State);
    pub fn faz_line_number(line: *const c_void) -> u64;
}
