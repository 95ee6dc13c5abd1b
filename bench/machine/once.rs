//! `once OUT PROGRAM WORD..` runs the program once, with its standard output in the file OUT, and prints its status, user and system time
//! in microseconds, and peak memory in KiB. It is small, since what starts a program counts for the peak that the system tells of it.

use std::fs::File;
use std::process::{Command, exit};

unsafe extern "C" {
    fn wait4(pid: i32, status: *mut i32, options: i32, usage: *mut i64) -> i32;
}

fn main() {
    let mut words = std::env::args_os().skip(1);
    let (Some(out), Some(program)) = (words.next(), words.next()) else {
        eprintln!("once OUT PROGRAM WORD..");
        exit(2);
    };
    let sink = File::create(out).expect("the output can be made");
    let child = Command::new(program).args(words).stdout(sink).spawn().expect("the program can be started");
    let (mut status, mut usage) = (0, [0i64; 32]);
    // SAFETY: `usage` has room for a `struct rusage`, which has 18 words.
    let waited = unsafe { wait4(child.id() as i32, &mut status, 0, usage.as_mut_ptr()) };
    assert_eq!(waited, child.id() as i32, "the program was waited for");
    let code = if status & 0x7f == 0 { status >> 8 & 0xff } else { -(status & 0x7f) };
    println!("{code} {} {} {}", usage[0] * 1_000_000 + usage[1], usage[2] * 1_000_000 + usage[3], usage[4]);
}
