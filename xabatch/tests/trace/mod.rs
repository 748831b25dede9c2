//! A process watched at each of its system calls, to end it or to let one fail. (Linux on x86-64;
//! no tool is needed, but the system must let a process trace its own children.)

use std::fs;
use std::io;
use std::os::unix::fs::MetadataExt;
use std::os::unix::process::CommandExt;
use std::process::Command;

const PTRACE_TRACEME: i64 = 0;
const PTRACE_PEEKUSER: i64 = 3;
const PTRACE_POKEUSER: i64 = 6;
const PTRACE_SYSCALL: i64 = 24;
const PTRACE_SETOPTIONS: i64 = 0x4200;
/// A stop at a system call is told apart from a signal; the child ends with us.
const OPTIONS: u64 = 1 | 0x10_0000;
const SIGKILL: i32 = 9;
const SIGTRAP: i32 = 5;

/// The places of registers in what the kernel shows of a process.
const RDI: u64 = 8 * 14;
const RAX: u64 = 8 * 10;
const ORIG_RAX: u64 = 8 * 15;

extern "C" {
    fn ptrace(request: i64, process: i32, at: u64, data: u64) -> i64;
    fn waitpid(process: i32, status: *mut i32, options: i32) -> i32;
    fn kill(process: i32, signal: i32) -> i32;
}

/// What to do at the system call of this number, the first being 0.
#[derive(Clone, Copy, Debug, PartialEq, Eq)]
pub enum Fault {
    Never,
    /// End the process before it is made.
    KillBefore(usize),
    /// End the process after it was made.
    KillAfter(usize),
    /// Let it give this error in place of being made.
    Fail(usize, i64),
}

/// A system call that was made.
#[derive(Clone, Copy, Debug, PartialEq, Eq)]
pub struct Call {
    pub number: u64,
    /// Its first argument.
    pub first: u64,
    /// Device and inode of the file whose number that is, if it is one.
    pub file: Option<(u64, u64)>,
    /// What it gave; none if the process ended in it.
    pub result: Option<i64>,
}

/// How a watched process went.
#[derive(Debug)]
pub struct Trace {
    pub calls: Vec<Call>,
    /// The exit status; none if a signal ended it.
    pub status: Option<i32>,
}

fn request(request: i64, process: i32, at: u64, data: u64) -> i64 {
    // SAFETY: the process is our child and stopped; what is read and written is its registers.
    unsafe { ptrace(request, process, at, data) }
}

fn register(process: i32, place: u64) -> u64 {
    let mut value = 0u64;
    // SAFETY: as above. The C function hands the word back and not through its last argument, but
    // what a library of another kind would write there has room.
    let word = unsafe { ptrace(PTRACE_PEEKUSER, process, place, &raw mut value as u64) };
    word as u64
}

fn wait(process: i32) -> i32 {
    let mut status = 0;
    // SAFETY: waits for our child; status is a place for one number.
    while unsafe { waitpid(process, &mut status, 0) } != process {}
    status
}

fn end(process: i32) {
    // SAFETY: our child, which we have not waited for to its end.
    unsafe { kill(process, SIGKILL) };
}

/// The call at whose beginning the process stopped.
fn call_of(process: i32) -> Call {
    let (number, first) = (register(process, ORIG_RAX), register(process, RDI));
    let file = fs::metadata(format!("/proc/{process}/fd/{first}")).ok();
    let file = file.map(|data| (data.dev(), data.ino()));
    Call { number, first, file, result: None }
}

#[allow(clippy::zombie_processes)] // it is waited for by its number
/// Starts the command, whose standard files are set already, and does what the fault says.
pub fn trace(command: &mut Command, fault: Fault) -> Trace {
    // SAFETY: between fork and exec this only asks to be traced.
    unsafe {
        command.pre_exec(|| match ptrace(PTRACE_TRACEME, 0, 0, 0) {
            0 => Ok(()),
            _ => Err(io::Error::last_os_error()),
        });
    }
    let child = command.spawn().expect("the command starts and may be traced");
    let process = child.id() as i32;
    assert_eq!(wait(process) >> 8 & 0xff, SIGTRAP, "it stops when it begins");
    assert_eq!(request(PTRACE_SETOPTIONS, process, 0, OPTIONS), 0, "it may be traced");
    let mut calls = Vec::new();
    let (mut inside, mut signal) = (false, 0);
    loop {
        request(PTRACE_SYSCALL, process, 0, signal);
        let status = wait(process);
        match status & 0x7f {
            0x7f => {}
            0 => return Trace { calls, status: Some(status >> 8 & 0xff) },
            _ => return Trace { calls, status: None },
        }
        let stopped = status >> 8 & 0xff;
        signal = 0;
        if stopped != SIGTRAP | 0x80 {
            signal = stopped as u64;
            continue;
        }
        inside = !inside;
        if inside {
            calls.push(call_of(process));
        }
        let number = calls.len() - 1;
        at_call(process, fault, number, inside);
        if !inside {
            calls[number].result = Some(register(process, RAX) as i64);
        }
    }
}

/// At the beginning (inside) or the end of a system call.
fn at_call(process: i32, fault: Fault, call: usize, inside: bool) {
    match fault {
        Fault::KillBefore(at) if at == call && inside => end(process),
        Fault::KillAfter(at) if at == call && !inside => end(process),
        // There is no system call of this number, so nothing is done.
        Fault::Fail(at, _) if at == call && inside => {
            request(PTRACE_POKEUSER, process, ORIG_RAX, u64::MAX);
        }
        Fault::Fail(at, error) if at == call => {
            request(PTRACE_POKEUSER, process, RAX, (-error) as u64);
        }
        _ => {}
    }
}
