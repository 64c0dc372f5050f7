//! The calls of epoll, which std has not.
use std::io;
use std::net::TcpListener;
use std::os::fd::{AsRawFd, FromRawFd, OwnedFd};

const ADD: i32 = 1;
const READ: u32 = 0x001;
const WRITE: u32 = 0x004;
const HANG_UP: u32 = 0x2000;
const EXCLUSIVE: u32 = 1 << 28;
const EDGE: u32 = 1 << 31;
const BATCH: usize = 256;

#[repr(C)]
#[cfg_attr(target_arch = "x86_64", repr(packed))]
#[derive(Clone, Copy)]
struct Event {
    events: u32,
    data: u64,
}

extern "C" {
    fn epoll_create1(flags: i32) -> i32;
    fn epoll_ctl(epoll: i32, operation: i32, fd: i32, event: *mut Event) -> i32;
    fn epoll_wait(epoll: i32, events: *mut Event, count: i32, timeout: i32) -> i32;
}

/// An epoll of one thread.
pub struct Poll {
    epoll: OwnedFd,
    events: [Event; BATCH],
}

impl Poll {
    pub fn new() -> io::Result<Poll> {
        // SAFETY: the call takes no memory; a descriptor that it gives is nobody else's.
        let epoll = unsafe {
            match epoll_create1(0) {
                fd if fd < 0 => return Err(io::Error::last_os_error()),
                fd => OwnedFd::from_raw_fd(fd),
            }
        };
        Ok(Poll { epoll, events: [Event { events: 0, data: 0 }; BATCH] })
    }

    fn register(&self, source: &impl AsRawFd, events: u32, name: u64) -> io::Result<()> {
        let mut event = Event { events, data: name };
        // SAFETY: the event lives through the call.
        match unsafe { epoll_ctl(self.epoll.as_raw_fd(), ADD, source.as_raw_fd(), &mut event) } {
            0 => Ok(()),
            _ => Err(io::Error::last_os_error()),
        }
    }

    /// Watches a connection, by edges in both directions.
    pub fn watch(&self, source: &impl AsRawFd, name: u64) -> io::Result<()> {
        self.register(source, READ | WRITE | HANG_UP | EDGE, name)
    }

    /// Watches a listener that other threads watch too.
    pub fn accept_from(&self, listener: &TcpListener, name: u64) -> io::Result<()> {
        self.register(listener, READ | EXCLUSIVE, name)
    }

    /// Waits for at most so many milliseconds, and returns how many names there are to be read by `name`.
    pub fn wait(&mut self, milliseconds: i32) -> io::Result<usize> {
        // SAFETY: the events live through the call, and their count is the array's.
        let count = unsafe {
            epoll_wait(self.epoll.as_raw_fd(), self.events.as_mut_ptr(), BATCH as i32, milliseconds)
        };
        match count {
            count if count >= 0 => Ok(count as usize),
            _ => Err(io::Error::last_os_error()),
        }
    }

    pub fn name(&self, index: usize) -> u64 {
        self.events[index].data
    }
}

/// Whether a call is to be made again once there is an event.
pub fn has_to_wait(error: &io::Error) -> bool {
    error.kind() == io::ErrorKind::WouldBlock
}
