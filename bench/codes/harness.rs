//! Times the crate of `bench/codes/crate` against `plain.rs`, in one run.

use plain::{Envelope, FrameReader, Message, decode, encode, frame};
use std::hint::black_box;
use std::time::Instant;

mod plain;

type Call = unsafe extern "C" fn(*const u8, usize, usize, u32, bool, *mut u64, usize) -> bool;

unsafe extern "C" {
    fn bench_encode(codes: *const u8, len: usize, size: usize, times: u32, marked: bool, out: *mut u64, out_len: usize) -> bool;
    fn bench_decode(codes: *const u8, len: usize, size: usize, times: u32, marked: bool, out: *mut u64, out_len: usize) -> bool;
    fn bench_frame(payloads: *const u8, len: usize, size: usize, times: u32, marked: bool, out: *mut u64, out_len: usize) -> bool;
    fn bench_feed(stream: *const u8, len: usize, piece: usize, times: u32, marked: bool, out: *mut u64, out_len: usize) -> bool;
}

const RUNS: usize = 15;
const PIECE: usize = 65_536;

fn proved(call: Call, bytes: &[u8], size: usize, times: u32, marked: bool) -> u64 {
    let mut out = [0u64];
    // The slices are this function's own, and do not overlap.
    let done = unsafe { call(bytes.as_ptr(), bytes.len(), size, times, marked, out.as_mut_ptr(), out.len()) };
    assert!(done, "the proved side did not answer");
    out[0]
}

/// Adds the length of bytes, or the bytes themselves.
fn add(sum: u64, bytes: &[u8], marked: bool) -> u64 {
    if !marked {
        return sum.wrapping_add(bytes.len() as u64);
    }
    bytes.iter().fold(sum, |all, byte| all.wrapping_mul(31).wrapping_add(*byte as u64))
}

fn plain_encode(codes: &[u8], size: usize, times: u32, marked: bool) -> u64 {
    let envelopes: Vec<Envelope> = codes.chunks_exact(size).map(|code| decode(code).unwrap()).collect();
    let mut sum = 0;
    for _ in 0..times {
        for envelope in &envelopes {
            sum = add(sum, black_box(&encode(envelope)), marked);
        }
    }
    sum
}

fn weight(envelope: &Envelope) -> u64 {
    match &envelope.message {
        Message::Util { cells, .. } => cells.last().copied().unwrap_or(0),
        Message::Value { value } => *value as u64,
        _ => 0,
    }
}

fn plain_decode(codes: &[u8], size: usize, times: u32, marked: bool) -> u64 {
    let mut sum = 0u64;
    for _ in 0..times {
        for code in codes.chunks_exact(size) {
            let envelope = decode(code).unwrap();
            sum = sum.wrapping_add(weight(&envelope));
            if marked {
                sum = add(sum, &encode(&envelope), true);
            }
        }
    }
    sum
}

fn plain_frame(payloads: &[u8], size: usize, times: u32, marked: bool) -> u64 {
    let mut sum = 0;
    for _ in 0..times {
        for payload in payloads.chunks_exact(size) {
            sum = add(sum, black_box(&frame(payload)), marked);
        }
    }
    sum
}

fn plain_feed(stream: &[u8], piece: usize, times: u32, marked: bool) -> u64 {
    let mut sum = 0;
    for _ in 0..times {
        let mut reader = FrameReader::default();
        for next in stream.chunks(piece) {
            reader.feed(next).unwrap();
            while let Some(payload) = reader.next() {
                sum = add(sum, black_box(&payload), marked);
            }
        }
    }
    sum
}

/// Compares both once, then prints the best times and their ratio.
fn time(name: &str, call: Call, plain: fn(&[u8], usize, u32, bool) -> u64, bytes: &[u8], size: usize, times: u32) {
    if proved(call, bytes, size, 1, true) != plain(bytes, size, 1, true) {
        println!("{name}: the two differ");
        std::process::exit(1);
    }
    let (mut ours, mut theirs) = (f64::MAX, f64::MAX);
    for _ in 0..RUNS {
        let start = Instant::now();
        black_box(proved(call, black_box(bytes), size, times, false));
        ours = ours.min(start.elapsed().as_secs_f64());
        let start = Instant::now();
        black_box(plain(black_box(bytes), size, times, false));
        theirs = theirs.min(start.elapsed().as_secs_f64());
    }
    println!("{name:<24} {:8.2} ms, plainly {:8.2} ms, ratio {:.2}", ours * 1e3, theirs * 1e3, theirs / ours);
}

/// All four calls on codes of one length.
fn time_all(name: &str, codes: &[u8], size: usize, times: u32) {
    let mut payloads = Vec::new();
    let mut stream = Vec::new();
    for code in codes.chunks_exact(size) {
        let payload = [&7u32.to_be_bytes()[..], &8u32.to_be_bytes()[..], code].concat();
        stream.extend_from_slice(&frame(&payload));
        payloads.extend_from_slice(&payload);
    }
    time(&format!("{name}: encode"), bench_encode, plain_encode, codes, size, times);
    time(&format!("{name}: decode"), bench_decode, plain_decode, codes, size, times);
    time(&format!("{name}: frame"), bench_frame, plain_frame, &payloads, size + 8, times);
    time(&format!("{name}: feed"), bench_feed, plain_feed, &stream, PIECE, times);
}

fn main() {
    let cells: Vec<u64> = (0..1u64 << 16).map(|k| k.wrapping_mul(0x9e37_79b9_7f4a_7c15) >> 2).collect();
    let util = encode(&Envelope { stamp: 3, message: Message::Util { scope: vec![1, 2], cells } });
    let values: Vec<u8> = (0..1_000u64).flat_map(|k| encode(&Envelope { stamp: k, message: Message::Value { value: (k % 1_024) as u16 } })).collect();
    time_all("UTIL", &util, util.len(), 200);
    time_all("VALUE", &values, 11, 1_000);
}
