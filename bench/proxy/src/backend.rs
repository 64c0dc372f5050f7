//! A backend: it answers `GET /NUMBER` with so many bytes, and keeps the connection unless the request says `close`.
use crate::poll::{has_to_wait, Poll};
use crate::slots::Slots;
use std::io::{self, Read, Write};
use std::net::{TcpListener, TcpStream};

const LISTENER: u64 = u64::MAX;

struct Peer {
    stream: TcpStream,
    head: Vec<u8>,
    answer: Vec<u8>,
    written: usize,
    closes: bool,
}

pub fn serve(threads: usize, listener: TcpListener) -> io::Result<()> {
    listener.set_nonblocking(true)?;
    std::thread::scope(|scope| {
        for _ in 0..threads {
            scope.spawn(|| run(&listener).expect("a loop of the backend"));
        }
    });
    Ok(())
}

fn run(listener: &TcpListener) -> io::Result<()> {
    let mut poll = Poll::new()?;
    poll.accept_from(listener, LISTENER)?;
    let mut peers = Slots::new();
    loop {
        for index in 0..poll.wait(-1)? {
            match poll.name(index) {
                LISTENER => take(&poll, listener, &mut peers)?,
                name => {
                    let number = name as usize;
                    let goes_on = peers.get(number).map(|peer| peer.go_on().unwrap_or(false));
                    if goes_on == Some(false) {
                        peers.remove(number);
                    }
                }
            }
        }
    }
}

fn take(poll: &Poll, listener: &TcpListener, peers: &mut Slots<Peer>) -> io::Result<()> {
    while let Ok((stream, _)) = listener.accept() {
        stream.set_nonblocking(true)?;
        stream.set_nodelay(true)?;
        let peer = Peer { stream, head: Vec::new(), answer: Vec::new(), written: 0, closes: false };
        let number = peers.insert(peer);
        let peer = peers.get(number).expect("it was inserted");
        poll.watch(&peer.stream, number as u64)?;
    }
    Ok(())
}

impl Peer {
    /// Reads and writes as far as it goes, and returns whether the connection goes on.
    fn go_on(&mut self) -> io::Result<bool> {
        let mut bytes = [0; 4096];
        loop {
            while self.written < self.answer.len() {
                match self.stream.write(&self.answer[self.written..]) {
                    Ok(count) => self.written += count,
                    Err(error) if has_to_wait(&error) => return Ok(true),
                    Err(error) => return Err(error),
                }
            }
            if self.closes {
                return Ok(false);
            }
            match self.stream.read(&mut bytes) {
                Ok(0) => return Ok(false),
                Ok(count) => self.head.extend_from_slice(&bytes[..count]),
                Err(error) if has_to_wait(&error) => return Ok(true),
                Err(error) => return Err(error),
            }
            if self.head.ends_with(b"\r\n\r\n") {
                self.answer();
            }
        }
    }

    fn answer(&mut self) {
        let head = String::from_utf8_lossy(&self.head);
        let number = head.strip_prefix("GET /").and_then(|rest| rest.split(' ').next());
        let size = number.and_then(|digits| digits.parse().ok()).unwrap_or(0);
        self.closes = head.contains("Connection: close");
        let kept = if self.closes { "close" } else { "keep-alive" };
        self.answer = format!("HTTP/1.1 200 OK\r\nContent-Length: {size}\r\nConnection: {kept}\r\n\r\n").into_bytes();
        self.answer.resize(self.answer.len() + size, b'x');
        self.written = 0;
        self.head.clear();
    }
}
