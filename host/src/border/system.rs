//! The system calls that the standard library lacks: epoll, signals as a file
//! that becomes readable, the time since the system's start, the local time, locks,
//! and how many files may be open.

use std::ffi::{c_int, c_long, c_ulong};
use std::fs::{self, File};
use std::io::{self, Read};
use std::ops::RangeInclusive;
use std::os::fd::{AsFd, AsRawFd, BorrowedFd, FromRawFd, OwnedFd};
use std::time::Duration;

/// There are bytes to read, a connection to take, or the other end has closed.
pub const READABLE: u32 = 0x001;
/// There is room to write.
pub const WRITABLE: u32 = 0x004;
const FAILED: u32 = 0x008;
const HUNG_UP: u32 = 0x010;

const CLOEXEC: c_int = 0x80000;
const NONBLOCK: c_int = 0x800;
const ADD: c_int = 1;
const MODIFY: c_int = 3;
const BLOCK: c_int = 0;
/// The clock that counts from the system's start, also while it is suspended.
const SINCE_BOOT: c_int = 7;
const INTERRUPT: c_int = 2;
const TERMINATE: c_int = 15;
/// A file would grow above its limit; where it is blocked, writing fails.
const FILE_SIZE: c_int = 25;
/// The signals that end a program and tell nothing of a fault of its own:
/// SIGHUP, SIGINT, SIGQUIT, SIGUSR1, SIGUSR2, SIGALRM, SIGTERM, SIGSTKFLT,
/// SIGXCPU, SIGVTALRM, SIGPROF, SIGIO, SIGPWR, and those without a name.
const ENDING: [RangeInclusive<c_int>; 8] = [
    1..=3,
    10..=10,
    12..=12,
    14..=16,
    24..=24,
    26..=27,
    29..=30,
    34..=64,
];
/// The number of the limit on open files.
const FILES: c_int = 7;

/// An event as the system writes it: what happened, and where.
#[derive(Clone, Copy)]
#[cfg_attr(target_arch = "x86_64", repr(C, packed))]
#[cfg_attr(not(target_arch = "x86_64"), repr(C))]
pub struct Event {
    happened: u32,
    token: u64,
}

impl Event {
    pub const NONE: Event = Event {
        happened: 0,
        token: 0,
    };

    /// The number under which the file was added.
    pub fn token(&self) -> usize {
        self.token as usize
    }

    /// Whether reading brings something, be it an error.
    pub fn is_readable(&self) -> bool {
        self.happened & !WRITABLE != 0
    }

    /// Whether the other end is gone, so that no byte comes or goes any more.
    pub fn is_lost(&self) -> bool {
        self.happened & (FAILED | HUNG_UP) != 0
    }

    /// Whether writing does.
    pub fn is_writable(&self) -> bool {
        self.happened & !READABLE != 0
    }
}

/// A limit as the system writes it: the one that holds, and how far it may be
/// raised.
#[repr(C)]
struct Bound {
    holds: c_ulong,
    most: c_ulong,
}

/// A local time as the system's library writes it: nine numbers from seconds to
/// summer time, its offset from UTC, and the name of the zone.
#[repr(C)]
struct Parts {
    numbers: [c_int; 9],
    offset: c_long,
    name: *const u8,
}

/// A set of signals, as large as the system's libraries have it.
type SignalSet = [u64; 16];

extern "C" {
    fn epoll_create1(flags: c_int) -> c_int;
    fn epoll_ctl(epoll: c_int, what: c_int, fd: c_int, event: *mut Event) -> c_int;
    fn epoll_wait(epoll: c_int, events: *mut Event, most: c_int, milliseconds: c_int) -> c_int;
    fn sigemptyset(set: *mut SignalSet) -> c_int;
    fn sigaddset(set: *mut SignalSet, signal: c_int) -> c_int;
    fn pthread_sigmask(how: c_int, set: *const SignalSet, old: *mut SignalSet) -> c_int;
    fn signalfd(fd: c_int, set: *const SignalSet, flags: c_int) -> c_int;
    fn clock_gettime(clock: c_int, time: *mut [c_long; 2]) -> c_int;
    fn flock(fd: c_int, how: c_int) -> c_int;
    fn getrlimit(which: c_int, bound: *mut Bound) -> c_int;
    fn setrlimit(which: c_int, bound: *const Bound) -> c_int;
    fn tzset();
    fn localtime_r(time: *const i64, parts: *mut Parts) -> *mut Parts;
}

/// A result of the system: below 0 is an error.
fn checked(result: c_int) -> io::Result<c_int> {
    if result < 0 {
        return Err(io::Error::last_os_error());
    }
    Ok(result)
}

/// Changes which signals this thread and those that it begins leave waiting.
fn mask(how: c_int, set: &SignalSet) -> io::Result<()> {
    // SAFETY: the set is lent for the call.
    match unsafe { pthread_sigmask(how, set, std::ptr::null_mut()) } {
        0 => Ok(()),
        error => Err(io::Error::from_raw_os_error(error)),
    }
}

/// Takes a file that the system has just opened for us.
fn owned(result: c_int) -> io::Result<OwnedFd> {
    let fd = checked(result)?;
    // SAFETY: the file is open, and nobody else has it.
    Ok(unsafe { OwnedFd::from_raw_fd(fd) })
}

/// Lets as many files be open as the system permits; answers how many that are.
pub fn raise_files() -> io::Result<u64> {
    let mut bound = Bound { holds: 0, most: 0 };
    // SAFETY: the bound is lent for each call.
    unsafe {
        checked(getrlimit(FILES, &mut bound))?;
        let raised = Bound {
            holds: bound.most,
            most: bound.most,
        };
        if checked(setrlimit(FILES, &raised)).is_ok() {
            bound = raised;
        }
    }
    Ok(bound.holds)
}

/// Locks a file or a folder as long as it is open, as flock(1) does. False where
/// somebody else has the lock.
pub fn try_lock(file: &impl AsFd) -> io::Result<bool> {
    const EXCLUSIVE_AT_ONCE: c_int = 2 | 4;
    // SAFETY: the file is open for the call.
    match checked(unsafe { flock(file.as_fd().as_raw_fd(), EXCLUSIVE_AT_ONCE) }) {
        Ok(_) => Ok(true),
        Err(error) if error.kind() == io::ErrorKind::WouldBlock => Ok(false),
        Err(error) => Err(error),
    }
}

/// Files that are waited for together.
pub struct Poll {
    epoll: OwnedFd,
}

impl Poll {
    pub fn new() -> io::Result<Poll> {
        // SAFETY: a call without memory.
        let epoll = owned(unsafe { epoll_create1(CLOEXEC) })?;
        Ok(Poll { epoll })
    }

    fn control(&self, what: c_int, fd: BorrowedFd, token: usize, interest: u32) -> io::Result<()> {
        let mut event = Event {
            happened: interest,
            token: token as u64,
        };
        // SAFETY: both files are open, and the event is lent for the call.
        let result = unsafe { epoll_ctl(self.epoll.as_raw_fd(), what, fd.as_raw_fd(), &mut event) };
        checked(result).map(|_| ())
    }

    /// Adds a file under a number. It leaves the set when it is closed.
    pub fn add(&self, file: &impl AsFd, token: usize, interest: u32) -> io::Result<()> {
        self.control(ADD, file.as_fd(), token, interest)
    }

    /// Changes what is waited for at a file.
    pub fn change(&self, file: &impl AsFd, token: usize, interest: u32) -> io::Result<()> {
        self.control(MODIFY, file.as_fd(), token, interest)
    }

    /// Waits until something happens or the time has passed; answers how many
    /// events there are. A signal may end it early.
    pub fn wait(&self, events: &mut [Event], most: Option<Duration>) -> io::Result<usize> {
        // Rounded up, so that the time has passed where it ends by itself.
        let milliseconds = match most {
            Some(time) => c_int::try_from(time.as_micros().div_ceil(1000)).unwrap_or(c_int::MAX),
            None => -1,
        };
        let room = c_int::try_from(events.len()).unwrap_or(c_int::MAX);
        // SAFETY: the slice is lent for the call, with its length.
        let result = unsafe {
            epoll_wait(
                self.epoll.as_raw_fd(),
                events.as_mut_ptr(),
                room,
                milliseconds,
            )
        };
        match checked(result) {
            Ok(count) => Ok(count as usize),
            Err(error) if error.kind() == io::ErrorKind::Interrupted => Ok(0),
            Err(error) => Err(error),
        }
    }
}

/// Seconds since the system was started. No one sets this clock.
pub fn since_boot() -> i64 {
    let mut time = [0; 2];
    // SAFETY: the time is lent for the call.
    match unsafe { clock_gettime(SINCE_BOOT, &mut time) } {
        0 => time[0],
        _ => 0,
    }
}

/// By how many seconds the local time is ahead of UTC at a UNIX time, by TZ or
/// by the system's zone.
pub fn local_offset(second: i64) -> i64 {
    let mut parts = Parts {
        numbers: [0; 9],
        offset: 0,
        name: std::ptr::null(),
    };
    // SAFETY: both are lent for the call, and nobody changes the environment.
    let told = unsafe {
        tzset();
        localtime_r(&second, &mut parts)
    };
    if told.is_null() {
        0
    } else {
        parts.offset
    }
}

/// The signals that are ignored at the start, as the system tells them: a bit
/// each, the lowest for signal 1.
fn ignored() -> u64 {
    let told = fs::read_to_string("/proc/self/status").unwrap_or_default();
    let line = told.lines().find_map(|line| line.strip_prefix("SigIgn:"));
    u64::from_str_radix(line.unwrap_or_default().trim(), 16).unwrap_or(0)
}

/// The signals that end a program, which from here on end it no more by
/// themselves. One that is ignored stays so (nohup), but for SIGINT and SIGTERM.
pub struct Signals {
    file: File,
    poll: Poll,
}

impl Signals {
    pub fn new() -> io::Result<Signals> {
        let (mut set, mut blocked): (SignalSet, SignalSet) = ([0; 16], [0; 16]);
        let ignored = ignored();
        // SAFETY: the sets are lent for each call.
        let file = unsafe {
            checked(sigemptyset(&mut set))?;
            checked(sigemptyset(&mut blocked))?;
            for signal in ENDING.into_iter().flatten() {
                let stays = ignored >> (signal - 1) & 1 == 1;
                if !stays || matches!(signal, INTERRUPT | TERMINATE) {
                    checked(sigaddset(&mut set, signal))?;
                    checked(sigaddset(&mut blocked, signal))?;
                }
            }
            checked(sigaddset(&mut blocked, FILE_SIZE))?;
            mask(BLOCK, &blocked)?;
            owned(signalfd(-1, &set, CLOEXEC | NONBLOCK))?
        };
        let poll = Poll::new()?;
        poll.add(&file, 0, READABLE)?;
        Ok(Signals {
            file: File::from(file),
            poll,
        })
    }

    /// Takes one signal, if one has come.
    pub fn take(&mut self) -> bool {
        let mut told = [0; 128];
        matches!(self.file.read(&mut told), Ok(count) if count > 0)
    }

    /// Waits so long for a signal, and takes it.
    pub fn wait(&mut self, most: Duration) -> bool {
        let _ = self.poll.wait(&mut [Event::NONE], Some(most));
        self.take()
    }
}

impl AsFd for Signals {
    fn as_fd(&self) -> BorrowedFd<'_> {
        self.file.as_fd()
    }
}

#[cfg(test)]
mod tests {
    use super::*;

    #[test]
    fn a_mask_that_is_refused_is_an_error() {
        let refused = mask(99, &[0; 16]).map_err(|error| error.kind());
        assert_eq!(refused, Err(io::ErrorKind::InvalidInput));
    }
}
