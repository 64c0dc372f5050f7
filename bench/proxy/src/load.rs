//! A load: so many connections at once, each with one request at a time, kept or new for each request.
use crate::poll::{has_to_wait, Poll};
use std::io::{self, Read, Write};
use std::net::{SocketAddr, TcpStream};
use std::time::{Duration, Instant};

#[derive(Clone, Copy)]
pub struct Plan {
    pub address: SocketAddr,
    pub threads: usize,
    pub connections: usize,
    pub seconds: f64,
    pub size: usize,
    pub keeps: bool,
}

// What a thread has seen: microseconds of each request, and how many failed.
#[derive(Default)]
struct Seen {
    times: Vec<u32>,
    failed: usize,
}

struct Client {
    stream: TcpStream,
    begun: Instant,
    written: usize,
    head: Vec<u8>,
    // bytes of the body that are still to come, once the head is whole
    left: Option<usize>,
    ended: bool,
}

pub fn run(plan: Plan) {
    let request = format!(
        "GET /{} HTTP/1.1\r\nHost: bench\r\n{}\r\n",
        plan.size,
        if plan.keeps { "" } else { "Connection: close\r\n" }
    );
    let begun = Instant::now();
    let seen: Vec<Seen> = std::thread::scope(|scope| {
        let started: Vec<_> = (0..plan.threads)
            .map(|_| scope.spawn(|| work(&plan, request.as_bytes()).expect("a loop of the load")))
            .collect();
        started.into_iter().map(|thread| thread.join().expect("it ends")).collect()
    });
    let seconds = begun.elapsed().as_secs_f64();
    let failed: usize = seen.iter().map(|one| one.failed).sum();
    let mut times: Vec<u32> = seen.into_iter().flat_map(|one| one.times).collect();
    times.sort_unstable();
    let at = |part: f64| times.get((times.len() as f64 * part) as usize).copied().unwrap_or(0);
    println!("{:.1} {} {} {failed}", times.len() as f64 / seconds, at(0.5), at(0.99));
}

fn work(plan: &Plan, request: &[u8]) -> io::Result<Seen> {
    let mut poll = Poll::new()?;
    let mut seen = Seen::default();
    let mut clients = Vec::new();
    for number in 0..plan.connections / plan.threads {
        clients.push(Client::new(plan)?);
        poll.watch(&clients[number].stream, number as u64)?;
    }
    let end = Instant::now() + Duration::from_secs_f64(plan.seconds);
    while Instant::now() < end {
        for index in 0..poll.wait(100)? {
            let number = poll.name(index) as usize;
            let client = &mut clients[number];
            let goes_on = client.go_on(plan, request, &mut seen);
            if goes_on.is_err() {
                seen.failed += 1;
            }
            if !matches!(goes_on, Ok(true)) {
                *client = Client::new(plan)?;
                poll.watch(&client.stream, number as u64)?;
            }
        }
    }
    Ok(seen)
}

impl Client {
    fn new(plan: &Plan) -> io::Result<Client> {
        let begun = Instant::now();
        let stream = TcpStream::connect(plan.address)?;
        stream.set_nonblocking(true)?;
        stream.set_nodelay(true)?;
        Ok(Client { stream, begun, written: 0, head: Vec::new(), left: None, ended: false })
    }

    /// Writes and reads as far as it goes, and returns whether the connection goes on.
    fn go_on(&mut self, plan: &Plan, request: &[u8], seen: &mut Seen) -> io::Result<bool> {
        let mut bytes = [0; 65536];
        loop {
            while self.written < request.len() {
                match self.stream.write(&request[self.written..]) {
                    Ok(count) => self.written += count,
                    Err(error) if has_to_wait(&error) => return Ok(true),
                    Err(error) => return Err(error),
                }
            }
            match self.stream.read(&mut bytes) {
                Ok(0) if self.ended => return Ok(false),
                Ok(0) => return Err(io::ErrorKind::UnexpectedEof.into()),
                Ok(count) => self.take(&bytes[..count])?,
                Err(error) if has_to_wait(&error) => return Ok(true),
                Err(error) => return Err(error),
            }
            if self.left == Some(0) && !self.ended {
                seen.times.push(self.begun.elapsed().as_micros() as u32);
                if plan.keeps {
                    self.begun = Instant::now();
                    (self.written, self.left) = (0, None);
                } else {
                    self.ended = true;
                }
            }
        }
    }

    fn take(&mut self, bytes: &[u8]) -> io::Result<()> {
        let body = match self.left {
            Some(left) => left.checked_sub(bytes.len()),
            None => {
                self.head.extend_from_slice(bytes);
                let Some(place) = self.head.windows(4).position(|four| four == b"\r\n\r\n") else { return Ok(()) };
                let text = String::from_utf8_lossy(&self.head[..place]).to_ascii_lowercase();
                let length = text.split("content-length: ").nth(1).and_then(|rest| rest.lines().next());
                let length: Option<usize> = length.and_then(|digits| digits.trim().parse().ok());
                let left = length.and_then(|length| length.checked_sub(self.head.len() - place - 4));
                self.head.clear();
                left
            }
        };
        self.left = Some(body.ok_or(io::ErrorKind::InvalidData)?);
        Ok(())
    }
}
