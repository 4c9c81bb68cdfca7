//! Times `bench_join` and `bench_project` of `lib.rt.txt` against plain Rust loops, in one run.

use std::hint::black_box;
use std::time::Instant;

unsafe extern "C" {
    fn bench_join(cells: *const u64, count: usize, out: *mut u64, out_count: usize) -> bool;
    fn bench_project(cells: *const u64, count: usize, by_first: bool, out: *mut u64, out_count: usize) -> bool;
}

const CAP: u64 = 1 << 62;
const SIZE: usize = 32;
const VARS: usize = 4;
const PAIRS: [[usize; 2]; 2] = [[0, 3], [3, 1]];
const TIMES: usize = 10;
const RUNS: usize = 9;

/// Adds a table to the joined cells, with the place in the table moved by strides, cell by cell.
fn add_plain(cells: &mut [u64], sizes: &[usize], strides: &[usize], table: &[u64]) {
    let mut values = vec![0; sizes.len()];
    let mut place = 0;
    for cell in cells {
        *cell = (*cell + table[place]).min(CAP);
        for k in (0..sizes.len()).rev() {
            values[k] += 1;
            place += strides[k];
            if values[k] < sizes[k] {
                break;
            }
            place -= strides[k] * sizes[k];
            values[k] = 0;
        }
    }
}

/// The same, row by row along the last variable.
fn add_rows(cells: &mut [u64], sizes: &[usize], strides: &[usize], table: &[u64]) {
    let last = sizes.len() - 1;
    let mut values = vec![0; last];
    let mut place = 0;
    for row in cells.chunks_exact_mut(sizes[last]) {
        for (k, cell) in row.iter_mut().enumerate() {
            *cell = (*cell + table[place + k * strides[last]]).min(CAP);
        }
        for k in (0..last).rev() {
            values[k] += 1;
            place += strides[k];
            if values[k] < sizes[k] {
                break;
            }
            place -= strides[k] * sizes[k];
            values[k] = 0;
        }
    }
}

type Add = fn(&mut [u64], &[usize], &[usize], &[u64]);

fn join(add: Add, table: &[u64], out: &mut [u64]) {
    let sizes = [SIZE; VARS];
    let mut cells = vec![0; out.len()];
    for [first, second] in PAIRS {
        let mut strides = [0; VARS];
        strides[first] = SIZE;
        strides[second] = 1;
        for _ in 0..TIMES {
            add(&mut cells, &sizes, &strides, table);
        }
    }
    out.copy_from_slice(&cells);
}

/// The best of some runs, in seconds.
fn best(mut run: impl FnMut()) -> f64 {
    (0..RUNS)
        .map(|_| {
            let begin = Instant::now();
            run();
            begin.elapsed().as_secs_f64()
        })
        .fold(f64::INFINITY, f64::min)
}

fn main() {
    time_join();
    time_project(true);
    time_project(false);
}

/// The least of each run of cells that differ in one variable: `outer` blocks, each of `SIZE` times
/// `inner` cells.
fn project_plain(cells: &[u64], inner: usize, out: &mut [u64]) {
    for (k, least) in out.iter_mut().enumerate() {
        let start = k / inner * inner * SIZE + k % inner;
        *least = (0..SIZE).map(|d| cells[start + d * inner]).min().unwrap_or(0);
    }
}

/// The same, run by run: each block's first run, lowered by each further one.
fn project_runs(cells: &[u64], inner: usize, out: &mut [u64]) {
    for (block, runs) in cells.chunks_exact(inner * SIZE).zip(out.chunks_exact_mut(inner)) {
        runs.copy_from_slice(&block[..inner]);
        for run in block[inner..].chunks_exact(inner) {
            for (least, cell) in runs.iter_mut().zip(run) {
                *least = (*least).min(*cell);
            }
        }
    }
}

/// Times a projection by the first variable, or by the last one. Each copies the cells first.
fn time_project(by_first: bool) {
    let count = SIZE.pow(VARS as u32);
    let cells: Vec<u64> = (0..count as u64).map(|k| k * 2_654_435_761 % 1_000_003).collect();
    let inner = if by_first { count / SIZE } else { 1 };
    let (mut ours, mut plain, mut runs) = (vec![0; count / SIZE], vec![0; count / SIZE], vec![0; count / SIZE]);
    let our_time = best(|| {
        // The slices are this function's own, and do not overlap.
        assert!(unsafe { bench_project(cells.as_ptr(), cells.len(), by_first, ours.as_mut_ptr(), ours.len()) });
        black_box(&mut ours);
    });
    let plain_time = best(|| {
        project_plain(&black_box(&cells).to_vec(), inner, &mut plain);
        black_box(&mut plain);
    });
    let runs_time = best(|| {
        project_runs(&black_box(&cells).to_vec(), inner, &mut runs);
        black_box(&mut runs);
    });
    assert!(ours == plain && ours == runs);
    let which = if by_first { "first" } else { "last" };
    println!("{count} cells projected by the {which} variable: {our_time:.4} s; a plain loop {plain_time:.4} s, ratio {:.2}; runs of a plain loop {runs_time:.4} s, ratio {:.2}",
        plain_time / our_time, runs_time / our_time);
}

fn time_join() {
    let table: Vec<u64> = (0..(SIZE * SIZE) as u64).map(|k| k * 2_654_435_761 % 1_000_003).collect();
    let count = SIZE.pow(VARS as u32);
    let (mut ours, mut plain, mut rows) = (vec![0; count], vec![0; count], vec![0; count]);
    let our_time = best(|| {
        // The slices are this function's own, and do not overlap.
        assert!(unsafe { bench_join(table.as_ptr(), table.len(), ours.as_mut_ptr(), ours.len()) });
        black_box(&mut ours);
    });
    let plain_time = best(|| {
        join(add_plain, black_box(&table), &mut plain);
        black_box(&mut plain);
    });
    let rows_time = best(|| {
        join(add_rows, black_box(&table), &mut rows);
        black_box(&mut rows);
    });
    assert!(ours == plain && ours == rows);
    let tables = PAIRS.len() * TIMES;
    println!("join of {tables} tables into {count} cells: {:.4} s; a plain loop {:.4} s, ratio {:.2}; rows of a plain loop {:.4} s, ratio {:.2}",
        our_time, plain_time, plain_time / our_time, rows_time, rows_time / our_time);
}
