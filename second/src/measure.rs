//! What the benchmarks (src/bin) share: how a call is timed, and the library's calls on a chip or a board alone.

use std::hint::black_box;
use std::time::Instant;

/// Timed rounds of each call, in turn; the best counts.
pub const ROUNDS: usize = 25;
/// Calls of one round.
pub const CALLS: u32 = 20_000;
/// Lessons played in one round.
pub const REPLAYS: u32 = 400;

/// Nanoseconds a call. Each answer counts as used; a caller reads its record anew for each call (`black_box`).
pub fn time<T>(call: impl FnMut() -> T) -> f64 {
    time_each(CALLS, call)
}

/// Nanoseconds a replay.
pub fn time_replay<T>(replay: impl FnMut() -> T) -> f64 {
    time_each(REPLAYS, replay)
}

fn time_each<T>(calls: u32, mut call: impl FnMut() -> T) -> f64 {
    let start = Instant::now();
    for _ in 0..calls {
        black_box(&call());
    }
    start.elapsed().as_nanos() as f64 / f64::from(calls)
}

/// What is measured, on what, by which command.
pub fn print_head(what: &str, command: &str) {
    println!("Machine: {}. Best of {ROUNDS} rounds of {CALLS} calls, {what} in turn.\n", machine());
    println!("Command: `{command}`\n");
    println!("Reply buffers are not cleared between calls.\n");
    if cfg!(debug_assertions) || cfg!(feature = "flips") {
        println!("**Not comparable: this build of the second model has checks or flips in it.**\n");
    }
}

fn machine() -> String {
    let text = std::fs::read_to_string("/proc/cpuinfo").unwrap_or_default();
    let names: Vec<&str> = text.lines().filter(|line| line.starts_with("model name")).collect();
    let name = names.first().and_then(|line| line.split_once(": ")).map_or("unknown", |(_, name)| name);
    format!("{name}, {} cores", names.len())
}

/// Nanoseconds of a library's call on these records.
#[cfg(capi)]
pub fn time_library<L: crate::ffi::Linked>(board: &crate::ffi::Board, call: &crate::runs::Call) -> f64 {
    use crate::ffi::Board;
    use crate::runs::Call;
    let Board { chip, firmware } = board;
    let reply = &mut [0; 80][..];
    match call {
        Call::Transfer { bytes, .. } => time(|| L::transfer(*black_box(chip), black_box(bytes), black_box(&mut *reply))),
        Call::Event { event, payload, .. } => {
            time(|| L::event(*black_box(chip), black_box(event), black_box(payload), black_box(&mut *reply)))
        }
        _ => time(|| L::board_step(*black_box(chip), black_box(*firmware), black_box(&mut *reply))),
    }
}
