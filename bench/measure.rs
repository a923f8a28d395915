//! Runs programs in turn, and prints what each took at best.
//!
//!     measure RUNS OUTPUT -- PROGRAM WORD.. [-- PROGRAM WORD..]..
//!
//! In each of RUNS turns each program is run once, in the order given, with no input, and its output
//! in the file OUTPUT. One line is printed for each program: its shortest wall time in nanoseconds,
//! from the start to the end of the process; its least processor time in microseconds; its peak
//! memory in KiB; its fewest page faults. What a program starts counts as its own: in the processor
//! time and the page faults the sum, in the memory the largest process. The memory of this driver,
//! about 2 MiB, is the least that can be shown, since a process counts what its parent held when it
//! was started.

use std::fs::File;
use std::process::{Command, ExitCode, Stdio};
use std::time::Instant;

/// The C library's record of what a process used, on Linux with 64 bits.
#[repr(C)]
#[derive(Default)]
struct Usage {
    user_time: [i64; 2],
    system_time: [i64; 2],
    peak_memory: i64,
    sizes: [i64; 3],
    page_faults: [i64; 2],
    others: [i64; 8],
}

extern "C" {
    fn prctl(option: i32, value: u64) -> i32;
    fn wait4(process: i32, status: *mut i32, options: i32, usage: *mut Usage) -> i32;
}

/// The option by which processes whose parent has ended become children of this one.
const SET_CHILD_SUBREAPER: i32 = 36;
const ANY_CHILD: i32 = -1;

#[derive(Clone, Copy)]
struct Cost {
    nanoseconds: u128,
    microseconds: i64,
    kibibytes: i64,
    page_faults: i64,
}

impl Cost {
    fn with(&self, other: &Cost) -> Cost {
        Cost {
            nanoseconds: self.nanoseconds.min(other.nanoseconds),
            microseconds: self.microseconds.min(other.microseconds),
            kibibytes: self.kibibytes.max(other.kibibytes),
            page_faults: self.page_faults.min(other.page_faults),
        }
    }
}

/// Waits for a child, and adds what it used to the cost. Nothing where there is no such child.
fn reap(process: i32, cost: &mut Cost) -> Option<i32> {
    let (mut status, mut usage) = (0, Usage::default());
    let ended = unsafe { wait4(process, &mut status, 0, &mut usage) };
    if ended <= 0 {
        return None;
    }
    for [seconds, microseconds] in [usage.user_time, usage.system_time] {
        cost.microseconds += 1_000_000 * seconds + microseconds;
    }
    cost.kibibytes = cost.kibibytes.max(usage.peak_memory);
    cost.page_faults += usage.page_faults.iter().sum::<i64>();
    Some(status)
}

fn run(words: &[String], output: &str) -> Result<Cost, String> {
    let failed = |error: std::io::Error| format!("{}: {error}", words.join(" "));
    let (program, rest) = words.split_first().ok_or("a program is missing")?;
    let output = File::create(output).map_err(failed)?;
    let mut cost = Cost {
        nanoseconds: 0,
        microseconds: 0,
        kibibytes: 0,
        page_faults: 0,
    };
    let begun = Instant::now();
    let child = Command::new(program)
        .args(rest)
        .stdin(Stdio::null())
        .stdout(output)
        .stderr(Stdio::null())
        .spawn()
        .map_err(failed)?;
    // The child is waited for here, and nowhere else.
    let status = reap(child.id() as i32, &mut cost);
    cost.nanoseconds = begun.elapsed().as_nanos();
    // What it started may end behind it.
    while reap(ANY_CHILD, &mut cost).is_some() {}
    if status != Some(0) {
        return Err(format!("failed: {}", words.join(" ")));
    }
    Ok(cost)
}

fn measure(words: &[String]) -> Result<(), String> {
    let usage = "usage: measure RUNS OUTPUT -- PROGRAM WORD.. [-- PROGRAM WORD..]..";
    let [runs, output, dashes, programs @ ..] = words else {
        return Err(usage.to_string());
    };
    let runs: u32 = runs.parse().map_err(|_| usage.to_string())?;
    if runs == 0 || dashes != "--" {
        return Err(usage.to_string());
    }
    unsafe { prctl(SET_CHILD_SUBREAPER, 1) };
    let programs: Vec<&[String]> = programs.split(|word| word == "--").collect();
    let mut costs: Vec<Option<Cost>> = vec![None; programs.len()];
    for _ in 0..runs {
        for (program, best) in programs.iter().zip(&mut costs) {
            let cost = run(program, output)?;
            *best = Some(best.map_or(cost, |best| best.with(&cost)));
        }
    }
    for cost in costs.into_iter().flatten() {
        println!(
            "{} {} {} {}",
            cost.nanoseconds, cost.microseconds, cost.kibibytes, cost.page_faults
        );
    }
    Ok(())
}

fn main() -> ExitCode {
    let words: Vec<String> = std::env::args().skip(1).collect();
    match measure(&words) {
        Ok(()) => ExitCode::SUCCESS,
        Err(why) => {
            eprintln!("measure: {why}");
            ExitCode::FAILURE
        }
    }
}
