//! Measures what a link of `lib.rt.txt` takes, and how fast it is beside a bare ring in the same run.

use std::time::Instant;

unsafe extern "C" {
    fn bench_make(count: usize) -> bool;
    fn bench_link(rounds: usize) -> bool;
    fn bench_ring(rounds: usize) -> bool;
}

const LINKS: usize = 100_000;
const ROUNDS: usize = 100_000;
const RUNS: usize = 9;

/// The most memory that this process has had, in bytes.
fn most_memory() -> usize {
    let status = std::fs::read_to_string("/proc/self/status").expect("status");
    let line = status.lines().find(|line| line.starts_with("VmHWM:")).expect("VmHWM");
    line.split_whitespace().nth(1).expect("kB").parse::<usize>().expect("number") * 1024
}

/// The best time of several runs, in seconds.
fn best(mut run: impl FnMut()) -> f64 {
    (0..RUNS)
        .map(|_| {
            let start = Instant::now();
            run();
            start.elapsed().as_secs_f64()
        })
        .fold(f64::INFINITY, f64::min)
}

fn main() {
    let before = most_memory();
    assert!(unsafe { bench_make(LINKS) });
    println!("bytes a link, both ends: {}", (most_memory() - before) / LINKS);
    let link = best(|| assert!(unsafe { bench_link(ROUNDS) }));
    let ring = best(|| assert!(unsafe { bench_ring(ROUNDS) }));
    let items = (ROUNDS * 64) as f64;
    println!("one thread: {:.1} ns an item through a link, {:.1} ns through a bare ring, ratio {:.2}",
        link / items * 1e9, ring / items * 1e9, ring / link);
}
