//! measure: runs a program several times on one input and tells its best time and its memory.
//!
//!     measure FILE RECORDS TIMES PROGRAM
//!
//! The program gets FILE, which has so many RECORDS, on standard input; its output goes to
//! /dev/null. Prints the time of the quickest run, by the clock on the wall, and the most memory
//! that any run held at once, as the kernel (Linux, 64 bits) counts it. The kernel counts this
//! program's own memory in at the start, so nothing below about 2,000 KiB can be told.

use std::fs::File;
use std::process::{Command, Stdio, exit};
use std::time::Instant;

/// `struct rusage` of Linux on 64 bits: 18 words, of which the fifth is the most memory that was
/// resident at once, in KiB.
#[repr(C)]
struct Usage {
    words: [i64; 18],
}

unsafe extern "C" {
    fn wait4(pid: i32, status: *mut i32, options: i32, usage: *mut Usage) -> i32;
}

fn main() {
    let arguments: Vec<String> = std::env::args().collect();
    let numbers = match arguments.as_slice() {
        [_, _, records, times, _] => records.parse::<f64>().ok().zip(times.parse::<usize>().ok()),
        _ => None,
    };
    let Some((records, times)) = numbers else {
        eprintln!("usage: measure FILE RECORDS TIMES PROGRAM");
        exit(2);
    };
    let (file, program) = (&arguments[1], &arguments[4]);

    let mut best = f64::INFINITY;
    let mut memory = 0;
    for _ in 0..times {
        let input = File::open(file).unwrap_or_else(|error| {
            eprintln!("measure: {file}: {error}");
            exit(2);
        });
        let start = Instant::now();
        let child = Command::new(program).stdin(input).stdout(Stdio::null()).spawn();
        let child = child.unwrap_or_else(|error| {
            eprintln!("measure: {program}: {error}");
            exit(2);
        });
        let mut status = 0;
        let mut usage = Usage { words: [0; 18] };
        // SAFETY: both pointers are to live values of the layout that wait4 writes, and nobody else
        // waits for this child.
        let waited = unsafe { wait4(child.id() as i32, &mut status, 0, &mut usage) };
        let seconds = start.elapsed().as_secs_f64();
        if waited != child.id() as i32 || status != 0 {
            eprintln!("measure: {program} failed, status {status}");
            exit(1);
        }
        best = best.min(seconds);
        memory = memory.max(usage.words[4]);
    }
    println!(
        "{best:.4} s, {:.0} records a second, {:.0} ns a record, {memory} KiB at most",
        records / best,
        best * 1e9 / records,
    );
}
