//! Runs a command, and prints the peak of its memory in bytes behind what it wrote. A process that takes much memory itself
//! can't tell it of one that it starts: what it holds then is counted in.
use std::process::{Command, exit};

/// What the system says of a process that ended: times, then the peak of its memory in units of 1,024 bytes.
#[repr(C)]
struct Usage {
    times: [i64; 4],
    peak: i64,
    rest: [i64; 13],
}

unsafe extern "C" {
    fn wait4(process: i32, status: *mut i32, options: i32, usage: *mut Usage) -> i32;
}

fn main() {
    let mut words = std::env::args_os().skip(1);
    let program = words.next().expect("a program");
    let child = Command::new(program).args(words).spawn().expect("a program that starts");
    let mut status = 0;
    let mut usage = Usage { times: [0; 4], peak: 0, rest: [0; 13] };
    // SAFETY: both pointers are to values that live through the call, and `Usage` has the layout of the system's rusage.
    let ended = unsafe { wait4(child.id() as i32, &mut status, 0, &mut usage) };
    if ended < 0 || status != 0 {
        exit(1);
    }
    println!("peak {}", usage.peak * 1024);
}
