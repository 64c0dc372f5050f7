//! A relay of TCP connections to backends in turn: what lbproxy does without checks, weights, counts and reloads.
use crate::poll::{has_to_wait, Poll};
use crate::slots::Slots;
use std::io::{self, Read, Write};
use std::net::{Shutdown, SocketAddr, TcpListener, TcpStream};
use std::sync::atomic::{AtomicUsize, Ordering};

const LISTENER: u64 = u64::MAX;
const BUFFER: usize = 32768;

// One direction: what was read and waits to be written.
struct Flow {
    buffer: Box<[u8; BUFFER]>,
    from: usize,
    to: usize,
    ended: bool,
    shut: bool,
}

struct Pair {
    client: TcpStream,
    backend: TcpStream,
    forth: Flow,
    back: Flow,
}

pub fn serve(threads: usize, listener: TcpListener, backends: &[SocketAddr]) -> io::Result<()> {
    listener.set_nonblocking(true)?;
    let next = AtomicUsize::new(0);
    std::thread::scope(|scope| {
        for _ in 0..threads {
            scope.spawn(|| run(&listener, backends, &next).expect("a loop of the relay"));
        }
    });
    Ok(())
}

fn run(listener: &TcpListener, backends: &[SocketAddr], next: &AtomicUsize) -> io::Result<()> {
    let mut poll = Poll::new()?;
    poll.accept_from(listener, LISTENER)?;
    let mut pairs = Slots::new();
    loop {
        for index in 0..poll.wait(-1)? {
            match poll.name(index) {
                LISTENER => take(&poll, listener, backends, next, &mut pairs)?,
                name => {
                    let number = name as usize;
                    let goes_on = pairs.get(number).map(|pair| pair.go_on().unwrap_or(false));
                    if goes_on == Some(false) {
                        pairs.remove(number);
                    }
                }
            }
        }
    }
}

fn take(
    poll: &Poll,
    listener: &TcpListener,
    backends: &[SocketAddr],
    next: &AtomicUsize,
    pairs: &mut Slots<Pair>,
) -> io::Result<()> {
    while let Ok((client, _)) = listener.accept() {
        let turn = next.fetch_add(1, Ordering::Relaxed) % backends.len();
        // On the loopback this doesn't wait.
        let Ok(backend) = TcpStream::connect(backends[turn]) else { continue };
        for stream in [&client, &backend] {
            stream.set_nonblocking(true)?;
            stream.set_nodelay(true)?;
        }
        let number = pairs.insert(Pair { client, backend, forth: Flow::new(), back: Flow::new() });
        let pair = pairs.get(number).expect("it was inserted");
        poll.watch(&pair.client, number as u64)?;
        poll.watch(&pair.backend, number as u64)?;
    }
    Ok(())
}

impl Pair {
    /// Relays as far as it goes, and returns whether the connection goes on.
    fn go_on(&mut self) -> io::Result<bool> {
        self.forth.pump(&mut self.client, &mut self.backend)?;
        self.back.pump(&mut self.backend, &mut self.client)?;
        Ok(!(self.forth.shut && self.back.shut))
    }
}

impl Flow {
    fn new() -> Flow {
        Flow { buffer: Box::new([0; BUFFER]), from: 0, to: 0, ended: false, shut: false }
    }

    fn pump(&mut self, source: &mut TcpStream, sink: &mut TcpStream) -> io::Result<()> {
        while !self.shut {
            while self.from < self.to {
                match sink.write(&self.buffer[self.from..self.to]) {
                    Ok(count) => self.from += count,
                    Err(error) if has_to_wait(&error) => return Ok(()),
                    Err(error) => return Err(error),
                }
            }
            if self.ended {
                self.shut = true;
                return sink.shutdown(Shutdown::Write);
            }
            match source.read(&mut self.buffer[..]) {
                Ok(0) => self.ended = true,
                Ok(count) => (self.from, self.to) = (0, count),
                Err(error) if has_to_wait(&error) => return Ok(()),
                Err(error) => return Err(error),
            }
        }
        Ok(())
    }
}
