//! What the pump does, in plain Rust on one thread: lists of bytes both ways through two rings, and both
//! ways over a connection on 127.0.0.1. Prints the best time of some runs of each in nanoseconds.

use std::io::{ErrorKind, Read, Result, Write};
use std::net::{TcpListener, TcpStream};
use std::time::Instant;

const RUNS: usize = 5;
const RING: usize = 4096;

/// A ring of bytes.
struct Ring {
    bytes: [u8; RING],
    head: usize,
    len: usize,
}

impl Ring {
    fn new() -> Ring {
        Ring { bytes: [0; RING], head: 0, len: 0 }
    }

    /// Puts in what there is room for; how many bytes.
    fn put(&mut self, from: &[u8]) -> usize {
        let count = from.len().min(RING - self.len);
        let tail = (self.head + self.len) % RING;
        let straight = count.min(RING - tail);
        self.bytes[tail..tail + straight].copy_from_slice(&from[..straight]);
        self.bytes[..count - straight].copy_from_slice(&from[straight..count]);
        self.len += count;
        count
    }

    /// Takes out what there is; how many bytes.
    fn take(&mut self, into: &mut [u8]) -> usize {
        let count = into.len().min(self.len);
        let straight = count.min(RING - self.head);
        into[..straight].copy_from_slice(&self.bytes[self.head..self.head + straight]);
        into[straight..count].copy_from_slice(&self.bytes[..count - straight]);
        self.head = (self.head + count) % RING;
        self.len -= count;
        count
    }
}

fn text(step: u8, len: usize) -> Vec<u8> {
    let mut byte = step;
    (0..len)
        .map(|_| {
            let this = byte;
            byte = byte.wrapping_mul(5).wrapping_add(step);
            this
        })
        .collect()
}

fn through_rings(there: &[u8], back: &[u8]) -> (Vec<u8>, Vec<u8>) {
    let (mut to_second, mut to_first) = (Ring::new(), Ring::new());
    let (mut at_second, mut at_first) = (vec![0; there.len()], vec![0; back.len()]);
    let (mut went, mut came, mut went_back, mut came_back) = (0, 0, 0, 0);
    while came < there.len() || came_back < back.len() {
        went += to_second.put(&there[went..]);
        went_back += to_first.put(&back[went_back..]);
        came += to_second.take(&mut at_second[came..]);
        came_back += to_first.take(&mut at_first[came_back..]);
    }
    (at_second, at_first)
}

/// What a call moved; nothing where it would wait.
fn moved(result: Result<usize>) -> usize {
    match result {
        Ok(count) => count,
        Err(error) if error.kind() == ErrorKind::WouldBlock => 0,
        Err(error) => panic!("{error}"),
    }
}

fn pair() -> Result<(TcpStream, TcpStream)> {
    let listener = TcpListener::bind(("127.0.0.1", 0))?;
    let first = TcpStream::connect(listener.local_addr()?)?;
    let (second, _) = listener.accept()?;
    for end in [&first, &second] {
        end.set_nonblocking(true)?;
        end.set_nodelay(true)?;
    }
    Ok((first, second))
}

fn over_loopback(ends: &mut (TcpStream, TcpStream), there: &[u8], back: &[u8]) -> (Vec<u8>, Vec<u8>) {
    let (first, second) = ends;
    let (mut at_second, mut at_first) = (vec![0; there.len()], vec![0; back.len()]);
    let (mut went, mut came, mut went_back, mut came_back) = (0, 0, 0, 0);
    while came < there.len() || came_back < back.len() {
        if went < there.len() {
            went += moved(first.write(&there[went..]));
        }
        if went_back < back.len() {
            went_back += moved(second.write(&back[went_back..]));
        }
        if came < there.len() {
            came += moved(second.read(&mut at_second[came..]));
        }
        if came_back < back.len() {
            came_back += moved(first.read(&mut at_first[came_back..]));
        }
    }
    (at_second, at_first)
}

fn main() {
    let len = std::env::args().nth(1).expect("bytes").parse().expect("a number");
    let (there, back) = (text(1, len), text(3, len));
    let mut best = [u128::MAX; 2];
    for _ in 0..RUNS {
        let begin = Instant::now();
        let came = through_rings(&there, &back);
        best[0] = best[0].min(begin.elapsed().as_nanos());
        assert!(came.0 == there && came.1 == back);
        let mut ends = pair().expect("a connection");
        let begin = Instant::now();
        let came = over_loopback(&mut ends, &there, &back);
        best[1] = best[1].min(begin.elapsed().as_nanos());
        assert!(came.0 == there && came.1 == back);
    }
    println!("{} {}", best[0], best[1]);
}
