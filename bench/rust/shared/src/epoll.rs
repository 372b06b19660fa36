//! Readiness of sockets, by Linux's epoll: level-triggered, each socket under a number of its own.

use std::io;
use std::os::unix::io::{AsRawFd, FromRawFd, OwnedFd};

/// So many sockets at most are told of by one wait.
const AT_ONCE: usize = 1024;

pub struct Epoll {
    descriptor: OwnedFd,
    events: Vec<libc::epoll_event>,
}

impl Epoll {
    pub fn new() -> io::Result<Epoll> {
        let descriptor = unsafe { libc::epoll_create1(libc::EPOLL_CLOEXEC) };
        if descriptor < 0 {
            return Err(io::Error::last_os_error());
        }
        Ok(Epoll {
            descriptor: unsafe { OwnedFd::from_raw_fd(descriptor) },
            events: vec![libc::epoll_event { events: 0, u64: 0 }; AT_ONCE],
        })
    }

    /// Watches whether `socket` can be read.
    pub fn add(&self, socket: &impl AsRawFd, number: u64) {
        self.control(libc::EPOLL_CTL_ADD, socket, libc::EPOLLIN, number);
    }

    /// Watches also, or no more, whether `socket` can be written.
    pub fn watch_writing(&self, socket: &impl AsRawFd, number: u64, watches: bool) {
        let wanted = if watches { libc::EPOLLIN | libc::EPOLLOUT } else { libc::EPOLLIN };
        self.control(libc::EPOLL_CTL_MOD, socket, wanted, number);
    }

    pub fn remove(&self, socket: &impl AsRawFd) {
        self.control(libc::EPOLL_CTL_DEL, socket, 0, 0);
    }

    fn control(&self, operation: i32, socket: &impl AsRawFd, wanted: i32, number: u64) {
        let mut event = libc::epoll_event { events: wanted as u32, u64: number };
        unsafe { libc::epoll_ctl(self.descriptor.as_raw_fd(), operation, socket.as_raw_fd(), &mut event) };
    }

    /// Waits so many milliseconds at most, and appends the numbers of the sockets that are ready.
    pub fn wait(&mut self, milliseconds: i32, ready: &mut Vec<u64>) {
        let room = self.events.len() as i32;
        let count =
            unsafe { libc::epoll_wait(self.descriptor.as_raw_fd(), self.events.as_mut_ptr(), room, milliseconds) };
        ready.extend(self.events.iter().take(count.max(0) as usize).map(|event| event.u64));
    }
}
