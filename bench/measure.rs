//! `measure RUNS STDIN STDOUT PROGRAM WORDS..` runs a program, and prints the least processor seconds of a run, the
//! most memory in KiB, and the greatest status. Its own memory is small, since what a program is started from counts
//! as that program's.

use std::fs::File;
use std::process::{Command, exit};

#[repr(C)]
#[derive(Default)]
struct Usage {
    user: [i64; 2],
    system: [i64; 2],
    most_memory: i64,
    rest: [i64; 13],
}

unsafe extern "C" {
    fn wait4(pid: i32, status: *mut i32, options: i32, usage: *mut Usage) -> i32;
}

fn main() {
    let words: Vec<String> = std::env::args().skip(1).collect();
    let (mut seconds, mut memory, mut greatest) = (f64::MAX, 0, 0);
    for _ in 0..words[0].parse::<u32>().unwrap() {
        let started = Command::new(&words[3])
            .args(&words[4..])
            .stdin(File::open(&words[1]).unwrap())
            .stdout(File::create(&words[2]).unwrap())
            .spawn()
            .unwrap();
        let (mut status, mut usage) = (0, Usage::default());
        if unsafe { wait4(started.id() as i32, &mut status, 0, &mut usage) } < 0 {
            exit(1);
        }
        let time = |t: [i64; 2]| t[0] as f64 + t[1] as f64 / 1e6;
        seconds = seconds.min(time(usage.user) + time(usage.system));
        memory = memory.max(usage.most_memory);
        // a run that was ended by a signal has the status that a shell gives it
        let signal = status & 127;
        greatest = greatest.max(if signal == 0 { status >> 8 } else { 128 + signal });
    }
    println!("{seconds} {memory} {greatest}");
}
