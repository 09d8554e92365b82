//! CPU time, which other work on the machine hardly changes: of the thread that asks, and of a program that is run; and the
//! program's peak memory. The symbols are libc's.

use std::fs;
use std::io::Write;
use std::process::{Command, Stdio};
use std::time::Duration;

#[repr(C)]
#[derive(Default)]
struct Timespec {
    seconds: i64,
    nanoseconds: i64,
}

#[repr(C)]
#[derive(Default)]
struct Timeval {
    seconds: i64,
    microseconds: i64,
}

#[repr(C)]
#[derive(Default)]
struct Usage {
    user: Timeval,
    system: Timeval,
    others: [i64; 14],
}

const THREAD_CPU_TIME: i32 = 3;
const DO_NOT_WAIT: i32 = 1;

extern "C" {
    fn clock_gettime(clock: i32, time: *mut Timespec) -> i32;
    fn wait4(process: i32, status: *mut i32, options: i32, usage: *mut Usage) -> i32;
}

/// CPU time of this thread since it began, in milliseconds.
pub fn thread_ms() -> f64 {
    let mut time = Timespec::default();
    let status = unsafe { clock_gettime(THREAD_CPU_TIME, &mut time) };
    assert_eq!(status, 0, "clock_gettime");
    time.seconds as f64 * 1e3 + time.nanoseconds as f64 / 1e6
}

/// CPU time of one run, in milliseconds.
pub fn timed<T>(run: impl FnOnce() -> T) -> f64 {
    let start = thread_ms();
    std::hint::black_box(run());
    thread_ms() - start
}

/// What a run of a program took: user and system time in milliseconds, and peak memory in megabytes.
#[derive(Clone, Copy)]
pub struct Took {
    pub ms: f64,
    pub megabytes: f64,
}

/// Runs a program on the given input, its output thrown away. The peak memory is what /proc says while it runs (wait4 would
/// never tell less than the memory of this program, which started it).
pub fn run_program(program: &str, input: &[u8]) -> Took {
    let mut child = Command::new(program).stdin(Stdio::piped()).stdout(Stdio::null()).spawn().unwrap();
    child.stdin.take().unwrap().write_all(input).unwrap();
    let (process, mut usage, mut status, mut megabytes) = (child.id() as i32, Usage::default(), 0, 0.0_f64);
    loop {
        megabytes = megabytes.max(peak(process));
        match unsafe { wait4(process, &mut status, DO_NOT_WAIT, &mut usage) } {
            0 => std::thread::sleep(Duration::from_millis(1)),
            ended => {
                assert_eq!((ended, status), (process, 0), "{program} failed");
                let ms = |time: &Timeval| time.seconds as f64 * 1e3 + time.microseconds as f64 / 1e3;
                return Took { ms: ms(&usage.user) + ms(&usage.system), megabytes };
            }
        }
    }
}

/// A running program's peak memory so far, 0 where it has just ended.
fn peak(process: i32) -> f64 {
    let status = fs::read_to_string(format!("/proc/{process}/status")).unwrap_or_default();
    let line = status.lines().find_map(|line| line.strip_prefix("VmHWM:"));
    let kilobytes = line.and_then(|line| line.split_whitespace().next()).map_or(0.0, |number| number.parse().unwrap());
    kilobytes / 1024.0
}
