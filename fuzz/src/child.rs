//! One run of the program as a traced process, with a breakpoint at each basic block that was not reached yet.

use crate::blocks::{self, reached};
use crate::system::*;
use std::ffi::c_void;
use std::fs::{File, OpenOptions};
use std::io::{self, Read, Write};
use std::os::fd::{AsRawFd, FromRawFd, OwnedFd};
use std::os::unix::fs::FileExt;
use std::os::unix::process::CommandExt;
use std::process::{Child, Command, Stdio};
use std::ptr::null_mut;

const BREAKPOINT: u8 = 0xCC;
/// The kind of the auxiliary vector's entry that is the program's start.
const ENTRY: u64 = 9;

/// The program and what of its code was not reached yet.
pub struct Program {
    path: String,
    /// Address of its start, as linked.
    start: u64,
    /// Addresses of its blocks, as linked, in order.
    blocks: Vec<u64>,
    /// Its code from the first block to the last, and the same with breakpoints.
    code: Vec<u8>,
    armed: Vec<u8>,
}

/// How a run ended: the wait status, and what was written.
pub struct Ended {
    pub status: i32,
    pub output: Vec<u8>,
}

/// A pipe of packets: what is written at once is read by itself.
fn packets() -> io::Result<[File; 2]> {
    let mut ends = [0; 2];
    unsafe {
        if pipe2(ends.as_mut_ptr(), PACKETS | CLOSED_BY_EXEC) != 0 || fcntl(ends[1], PIPE_SIZE, 1 << 20) < 0 {
            return Err(io::Error::last_os_error());
        }
        Ok(ends.map(|end| File::from(OwnedFd::from_raw_fd(end))))
    }
}

fn trace(request: i64, process: i32, data: *mut c_void) -> io::Result<()> {
    match unsafe { ptrace(request, process, null_mut(), data) } {
        -1 => Err(io::Error::last_os_error()),
        _ => Ok(()),
    }
}

/// Waits until the process stops or ends.
fn wait(process: i32) -> io::Result<i32> {
    let mut status = 0;
    while unsafe { waitpid(process, &mut status, 0) } != process {
        let error = io::Error::last_os_error();
        if error.kind() != io::ErrorKind::Interrupted {
            return Err(error);
        }
    }
    Ok(status)
}

/// The signal that stopped a process, if it is stopped.
fn stopped(status: i32) -> Option<i32> {
    (status & 0xFF == 0x7F).then_some(status >> 8 & 0xFF)
}

impl Program {
    /// The program that FUZZ_PROGRAM names, with the blocks that FUZZ_BLOCKS names.
    pub fn new() -> io::Result<Program> {
        let path = std::env::var("FUZZ_PROGRAM").map_err(io::Error::other)?;
        let addresses = blocks::addresses();
        let (&start, listed) = addresses.split_first().unwrap_or((&0, &[]));
        blocks::list(listed.to_vec());
        let listed = listed.iter().map(|&at| at as u64).collect();
        Ok(Program { path, start: start as u64, blocks: listed, code: Vec::new(), armed: Vec::new() })
    }

    /// How far the process's code lies from where it was linked.
    fn moved(&self, process: i32) -> io::Result<u64> {
        let vector = std::fs::read(format!("/proc/{process}/auxv"))?;
        let word = |at: usize| u64::from_ne_bytes(vector[at..at + 8].try_into().unwrap_or_default());
        let entry = (0..vector.len() / 16).find(|&i| word(16 * i) == ENTRY).ok_or(io::Error::other("no entry"))?;
        Ok(word(16 * entry + 8).wrapping_sub(self.start))
    }

    /// Puts the breakpoints that are left into a process that has not begun.
    fn arm(&mut self, memory: &File, moved: u64) -> io::Result<()> {
        let (Some(first), Some(last)) = (self.blocks.first(), self.blocks.last()) else { return Ok(()) };
        if self.code.is_empty() {
            self.code = vec![0; (last - first) as usize + 1];
            memory.read_exact_at(&mut self.code, first + moved)?;
            self.armed = self.code.clone();
            self.blocks.iter().for_each(|block| self.armed[(block - first) as usize] = BREAKPOINT);
        }
        memory.write_all_at(&self.armed, first + moved)
    }

    /// At a breakpoint: puts the instruction back and reports the block. Whether it was one of ours.
    fn pass(&mut self, process: i32, memory: &File, moved: u64) -> io::Result<bool> {
        let mut registers: Registers = [0; 27];
        trace(GET_REGISTERS, process, registers.as_mut_ptr().cast())?;
        let at = registers[POINTER].wrapping_sub(moved).wrapping_sub(1);
        let Ok(block) = self.blocks.binary_search(&at) else { return Ok(false) };
        let place = (at - self.blocks[0]) as usize;
        self.armed[place] = self.code[place];
        memory.write_all_at(&self.code[place..=place], at + moved)?;
        registers[POINTER] -= 1;
        trace(SET_REGISTERS, process, registers.as_mut_ptr().cast())?;
        reached(block);
        Ok(true)
    }

    fn spawn(&self, input: File, output: File) -> io::Result<Child> {
        let mut command = Command::new(&self.path);
        let errors = Stdio::from(output.try_clone()?);
        command.stdin(Stdio::from(input)).stdout(Stdio::from(output)).stderr(errors);
        unsafe { command.pre_exec(|| trace(TRACE_ME, 0, null_mut())) };
        command.spawn()
    }

    /// Runs a process that stands at its beginning to its end; its wait status.
    fn follow(&mut self, process: i32) -> io::Result<i32> {
        wait(process)?;
        let memory = OpenOptions::new().read(true).write(true).open(format!("/proc/{process}/mem"))?;
        let moved = self.moved(process)?;
        self.arm(&memory, moved)?;
        let mut signal = 0;
        loop {
            trace(CONTINUE, process, signal as usize as *mut c_void)?;
            let status = wait(process)?;
            let Some(by) = stopped(status) else { return Ok(status) };
            signal = if by == SIGTRAP && self.pass(process, &memory, moved)? { 0 } else { by };
        }
    }

    /// One run on a text that arrives in these pieces. Standard error goes where the output goes: nothing may stand there.
    pub fn run(&mut self, pieces: &[&[u8]]) -> io::Result<Ended> {
        let [theirs, mut ours] = packets()?;
        let (mut reading, writing) = io::pipe()?;
        if unsafe { fcntl(writing.as_raw_fd(), PIPE_SIZE, 1 << 17) } < 0 {
            return Err(io::Error::last_os_error());
        }
        let child = self.spawn(theirs, File::from(OwnedFd::from(writing)))?;
        for piece in pieces {
            ours.write_all(piece)?;
        }
        drop(ours);
        let status = self.follow(child.id() as i32)?;
        let mut output = Vec::new();
        reading.read_to_end(&mut output)?;
        Ok(Ended { status, output })
    }
}
