//! Asks a server for one reply over and over, at as little cost as can be.
//!
//! usage: asker PORT CLIENTS COUNT REQUEST REPLY
//! REQUEST and REPLY are files with the frames of a request and of its reply. Connects CLIENTS times to PORT of this
//! machine, writes `connected`, and waits for a line. Then each client asks COUNT times in a thread of its own. The first
//! reply is compared with REPLY. Of the others the bytes are counted and dropped in the kernel, so none is copied. Ends with
//! status 1 if a first reply differs, or if a connection ends early.
use std::io::{self, Read, Write};
use std::net::TcpStream;
use std::os::fd::AsRawFd;
use std::process::ExitCode;
use std::time::Duration;
use std::{env, fs, ptr, thread};

/// Linux's flags of `recv`: bytes are dropped, and the call waits until all are there.
const MSG_TRUNC: i32 = 0x20;
const MSG_WAITALL: i32 = 0x100;

/// The longest wait for one call.
const PATIENCE: Duration = Duration::from_secs(600);

unsafe extern "C" {
    fn recv(socket: i32, room: *mut u8, len: usize, flags: i32) -> isize;
}

/// Drops the next `left` bytes of a connection.
fn pass(link: &TcpStream, mut left: usize) -> io::Result<()> {
    while left > 0 {
        // Safety: these bytes are dropped, so nothing is written to the room.
        let got = unsafe { recv(link.as_raw_fd(), ptr::null_mut(), left, MSG_TRUNC | MSG_WAITALL) };
        match usize::try_from(got) {
            Ok(0) => return Err(io::ErrorKind::UnexpectedEof.into()),
            Ok(got) => left -= got,
            Err(_) => return Err(io::Error::last_os_error()),
        }
    }
    Ok(())
}

/// Asks over a connection, and whether the first reply is the right one.
fn ask(link: &mut TcpStream, count: usize, request: &[u8], reply: &[u8]) -> io::Result<bool> {
    let mut first = vec![0; reply.len()];
    link.write_all(request)?;
    link.read_exact(&mut first)?;
    for _ in 1..count {
        link.write_all(request)?;
        pass(link, reply.len())?;
    }
    Ok(first == reply)
}

fn connected(port: u16) -> io::Result<TcpStream> {
    let link = TcpStream::connect(("127.0.0.1", port))?;
    link.set_nodelay(true)?;
    link.set_read_timeout(Some(PATIENCE))?;
    link.set_write_timeout(Some(PATIENCE))?;
    Ok(link)
}

fn main() -> ExitCode {
    let words: Vec<String> = env::args().collect();
    let [_, port, clients, count, request, reply] = &words[..] else {
        panic!("usage: asker PORT CLIENTS COUNT REQUEST REPLY");
    };
    let (port, clients, count): (u16, usize, usize) = (port.parse().unwrap(), clients.parse().unwrap(), count.parse().unwrap());
    let (request, reply) = (&fs::read(request).unwrap(), &fs::read(reply).unwrap());
    let links: Vec<TcpStream> = (0..clients).map(|_| connected(port).unwrap()).collect();
    println!("connected");
    io::stdin().read_line(&mut String::new()).unwrap();
    let right = thread::scope(|scope| {
        let asking: Vec<_> = links
            .into_iter()
            .map(|mut link| scope.spawn(move || ask(&mut link, count, request, reply)))
            .collect();
        asking.into_iter().all(|asked| asked.join().unwrap().unwrap_or(false))
    });
    if right { ExitCode::SUCCESS } else { ExitCode::FAILURE }
}
