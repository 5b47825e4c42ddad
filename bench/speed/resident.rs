//! Runs a command, writes to a file how many bytes it had resident at most, and ends with its
//! status. For bench/tools/measure.py: the system counts what the process that starts a command has
//! resident for the command too, and this one has little.
//!
//!     resident FILE COMMAND..

use std::ffi::c_int;
use std::io::{Error, Result};
use std::process::{Command, exit};

/// The system's account of a process, in the layout of 64-bit Linux: two times of two numbers each,
/// and fourteen numbers.
#[repr(C)]
#[derive(Default)]
struct Usage {
    times: [i64; 4],
    most_kib: i64,
    others: [i64; 13],
}

unsafe extern "C" {
    fn wait4(process: c_int, status: *mut c_int, options: c_int, usage: *mut Usage) -> c_int;
}

/// The status of a command, as a shell says it, and the most bytes that it had resident.
fn run(words: &[String]) -> Result<(c_int, i64)> {
    let child = Command::new(&words[0]).args(&words[1..]).spawn()?;
    let (mut status, mut usage) = (0, Usage::default());
    // SAFETY: both pointers are to values of this frame, and the child is this process's own and
    // was never waited for.
    if unsafe { wait4(child.id() as c_int, &mut status, 0, &mut usage) } < 0 {
        return Err(Error::last_os_error());
    }
    let signal = status & 0x7F;
    Ok((if signal == 0 { status >> 8 & 0xFF } else { 128 + signal }, usage.most_kib * 1024))
}

fn main() -> Result<()> {
    let words: Vec<String> = std::env::args().skip(1).collect();
    let (status, resident) = run(&words[1..])?;
    std::fs::write(&words[0], format!("{resident}\n"))?;
    exit(status)
}
