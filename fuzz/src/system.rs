//! The calls of the C library that the standard library does not have, for x86-64 Linux.

use std::ffi::c_void;

/// `struct sigaction` of the C library.
#[repr(C)]
pub struct Action {
    pub handler: extern "C" fn(i32, *const c_void, *mut c_void),
    pub mask: [u64; 16],
    pub flags: i32,
    pub restorer: usize,
}

/// `struct user_regs_struct`: 27 words.
pub type Registers = [u64; 27];

/// The word of [`Registers`] that is the instruction pointer.
pub const POINTER: usize = 16;
/// Where a signal's context keeps the instruction pointer.
pub const CONTEXT_POINTER: usize = 168;

pub const SIGTRAP: i32 = 5;
pub const SA_SIGINFO: i32 = 4;
pub const READ: i32 = 1;
pub const WRITE: i32 = 2;
pub const EXECUTE: i32 = 4;
/// MAP_PRIVATE and MAP_ANONYMOUS.
pub const PRIVATE: i32 = 0x22;
/// Each write to a pipe is read by itself.
pub const PACKETS: i32 = 0x4000;
/// The pipe's ends are not inherited by programs.
pub const CLOSED_BY_EXEC: i32 = 0x80000;
/// `fcntl`: the size of a pipe.
pub const PIPE_SIZE: i32 = 1031;

/// Requests of `ptrace`.
pub const TRACE_ME: i64 = 0;
pub const CONTINUE: i64 = 7;
pub const GET_REGISTERS: i64 = 12;
pub const SET_REGISTERS: i64 = 13;

extern "C" {
    pub fn mmap(at: *mut c_void, size: usize, protection: i32, flags: i32, file: i32, offset: i64) -> *mut c_void;
    pub fn mprotect(at: *mut c_void, size: usize, protection: i32) -> i32;
    pub fn sigaction(signal: i32, action: *const Action, old: *mut Action) -> i32;
    pub fn atexit(call: extern "C" fn()) -> i32;
    pub fn pipe2(ends: *mut i32, flags: i32) -> i32;
    pub fn fcntl(file: i32, command: i32, argument: i32) -> i32;
    pub fn ptrace(request: i64, process: i32, address: *mut c_void, data: *mut c_void) -> i64;
    pub fn waitpid(process: i32, status: *mut i32, options: i32) -> i32;
}
