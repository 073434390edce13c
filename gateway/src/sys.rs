//! What std does not give of the C library on 64-bit Linux, declared by hand, each behind a safe
//! function.

use std::ffi::{c_char, c_int, c_short, c_uint, c_ulong, CStr, CString};
use std::fs::File;
use std::io::{self, Read};
use std::mem::size_of;
use std::os::fd::{AsRawFd, FromRawFd, OwnedFd, RawFd};
use std::path::Path;

pub const POLLIN: c_short = 0x1;
pub const POLLOUT: c_short = 0x4;
pub const POLLERR: c_short = 0x8;
pub const POLLHUP: c_short = 0x10;
pub const POLLRDHUP: c_short = 0x2000;

pub const SIGHUP: c_int = 1;
pub const SIGINT: c_int = 2;
pub const SIGUSR1: c_int = 10;
pub const SIGTERM: c_int = 15;

/// For std's `custom_flags`.
pub const O_NOCTTY: c_int = 0o400;
pub const O_NONBLOCK: c_int = 0o4000;

pub const IN_CLOSE: u32 = 0x18;
pub const IN_OPEN: u32 = 0x20;

const O_RDWR: c_int = 2;
const O_CLOEXEC: c_int = 0o2000000;
const CLOCK_MONOTONIC: c_int = 1;
const SIG_BLOCK: c_int = 0;
const SIG_IGN: usize = 1;
const TIOCEXCL: c_ulong = 0x540C;
const TCSANOW: c_int = 0;
const TCIFLUSH: c_int = 0;
const TCIOFLUSH: c_int = 2;
const CLOCAL: c_uint = 0o4000;
const CREAD: c_uint = 0o200;
const CSTOPB: c_uint = 0o100;
const PARENB: c_uint = 0o400;
const PARODD: c_uint = 0o1000;
const CRTSCTS: c_uint = 0o20000000000;
const INPCK: c_uint = 0o20;
const IGNPAR: c_uint = 0o4;

#[repr(C)]
#[derive(Clone, Copy)]
pub struct PollFd {
    pub fd: RawFd,
    pub events: c_short,
    pub revents: c_short,
}

#[repr(C)]
struct Timespec {
    seconds: i64,
    nanoseconds: i64,
}

#[repr(C)]
struct Interval {
    interval: Timespec,
    value: Timespec,
}

#[repr(C)]
struct SignalSet([u64; 16]);

/// glibc's `struct termios`.
#[repr(C)]
struct Termios {
    iflag: c_uint,
    oflag: c_uint,
    cflag: c_uint,
    lflag: c_uint,
    line: u8,
    cc: [u8; 32],
    ispeed: c_uint,
    ospeed: c_uint,
}

extern "C" {
    #[link_name = "poll"]
    fn c_poll(fds: *mut PollFd, count: c_ulong, timeout: c_int) -> c_int;
    fn timerfd_create(clock: c_int, flags: c_int) -> c_int;
    fn timerfd_settime(fd: c_int, flags: c_int, new: *const Interval, old: *mut Interval) -> c_int;
    fn signalfd(fd: c_int, mask: *const SignalSet, flags: c_int) -> c_int;
    fn sigemptyset(set: *mut SignalSet) -> c_int;
    fn sigaddset(set: *mut SignalSet, signal: c_int) -> c_int;
    fn pthread_sigmask(how: c_int, set: *const SignalSet, old: *mut SignalSet) -> c_int;
    fn signal(signal: c_int, handler: usize) -> usize;
    fn tcgetattr(fd: c_int, termios: *mut Termios) -> c_int;
    fn tcsetattr(fd: c_int, when: c_int, termios: *const Termios) -> c_int;
    fn cfmakeraw(termios: *mut Termios);
    fn cfsetspeed(termios: *mut Termios, speed: c_uint) -> c_int;
    fn tcflush(fd: c_int, queue: c_int) -> c_int;
    fn ioctl(fd: c_int, request: c_ulong, ...) -> c_int;
    fn posix_openpt(flags: c_int) -> c_int;
    fn grantpt(fd: c_int) -> c_int;
    fn unlockpt(fd: c_int) -> c_int;
    fn ptsname_r(fd: c_int, name: *mut c_char, length: usize) -> c_int;
    fn inotify_init1(flags: c_int) -> c_int;
    fn inotify_add_watch(fd: c_int, path: *const c_char, mask: u32) -> c_int;
}

fn checked(result: c_int) -> io::Result<c_int> {
    match result {
        -1 => Err(io::Error::last_os_error()),
        _ => Ok(result),
    }
}

/// The descriptor that a C function has just made.
fn owned(result: c_int) -> io::Result<File> {
    let fd = checked(result)?;
    // It is new, so nobody else owns it.
    Ok(File::from(unsafe { OwnedFd::from_raw_fd(fd) }))
}

/// Waits until a descriptor is ready; without end where there is no timeout.
pub fn poll(fds: &mut [PollFd], timeout_ms: Option<u32>) -> io::Result<()> {
    let timeout = timeout_ms.map_or(-1, |ms| ms as c_int);
    // The slice lives through the call, and its length is given.
    match checked(unsafe { c_poll(fds.as_mut_ptr(), fds.len() as c_ulong, timeout) }) {
        Err(error) if error.kind() != io::ErrorKind::Interrupted => Err(error),
        _ => Ok(()),
    }
}

/// What is ready now on one descriptor.
pub fn poll_one(fd: RawFd, events: c_short) -> c_short {
    let mut fds = [PollFd { fd, events, revents: 0 }];
    match poll(&mut fds, Some(0)) {
        Ok(()) => fds[0].revents,
        Err(_) => 0,
    }
}

/// A descriptor that becomes readable when a time has passed, once it is set.
pub fn timer() -> io::Result<File> {
    owned(unsafe { timerfd_create(CLOCK_MONOTONIC, O_NONBLOCK | O_CLOEXEC) })
}

/// Sets a timer to become readable each time so many milliseconds, below 1000, have passed.
pub fn set_timer(timer: &File, pause_ms: u64) -> io::Result<()> {
    let pause = || Timespec { seconds: 0, nanoseconds: pause_ms as i64 * 1_000_000 };
    let each = Interval { interval: pause(), value: pause() };
    // The record lives through the call.
    let result = unsafe { timerfd_settime(timer.as_raw_fd(), 0, &each, std::ptr::null_mut()) };
    checked(result).map(|_| ())
}

/// Blocks the signals for this thread and those it makes from now on, and gives a descriptor from
/// which they are read.
pub fn signal_descriptor(signals: &[c_int]) -> io::Result<File> {
    let mut set = SignalSet([0; 16]);
    // The set is as large as the functions expect, and lives through the calls.
    unsafe {
        checked(sigemptyset(&mut set))?;
        for signal in signals {
            checked(sigaddset(&mut set, *signal))?;
        }
        match pthread_sigmask(SIG_BLOCK, &set, std::ptr::null_mut()) {
            0 => owned(signalfd(-1, &set, O_NONBLOCK | O_CLOEXEC)),
            error => Err(io::Error::from_raw_os_error(error)),
        }
    }
}

/// The next signal that came, if any. Its record has 128 bytes, the number first.
pub fn next_signal(mut descriptor: &File) -> Option<c_int> {
    let mut record = [0; 128];
    match descriptor.read(&mut record) {
        Ok(128) => Some(c_int::from_ne_bytes([record[0], record[1], record[2], record[3]])),
        _ => None,
    }
}

pub fn ignore_signal(number: c_int) {
    unsafe { signal(number, SIG_IGN) };
}

#[derive(Clone, Copy, Debug, PartialEq, Eq)]
pub enum Parity {
    None,
    Even,
    Odd,
}

/// The speeds that a terminal can be set to, with the numbers that the C library has for them.
const SPEEDS: [(u32, c_uint); 13] = [
    (300, 7),
    (600, 8),
    (1200, 9),
    (1800, 10),
    (2400, 11),
    (4800, 12),
    (9600, 13),
    (19_200, 14),
    (38_400, 15),
    (57_600, 0x1001),
    (115_200, 0x1002),
    (230_400, 0x1003),
    (460_800, 0x1004),
];

/// The speeds that `set_raw` takes.
pub fn bauds() -> impl Iterator<Item = u32> {
    SPEEDS.iter().map(|(baud, _)| *baud)
}

/// Raw mode, 8 bits, one stop bit, no flow control: bytes come and go as they are.
pub fn set_raw(terminal: &File, baud: u32, parity: Parity) -> io::Result<()> {
    let unknown = || io::Error::new(io::ErrorKind::InvalidInput, "no such speed");
    let speed = SPEEDS.iter().find(|(known, _)| *known == baud).ok_or_else(unknown)?.1;
    let fd = terminal.as_raw_fd();
    // All fields are numbers, so zeros are a value.
    let mut termios: Termios = unsafe { std::mem::zeroed() };
    // The record is that of the C library and lives through the calls.
    unsafe {
        checked(tcgetattr(fd, &mut termios))?;
        cfmakeraw(&mut termios);
        checked(cfsetspeed(&mut termios, speed))?;
    }
    termios.cflag &= !(CSTOPB | PARENB | PARODD | CRTSCTS);
    termios.cflag |= CLOCAL | CREAD;
    // A byte of wrong parity is dropped; the string is then a wrong one and gets N.
    match parity {
        Parity::None => {}
        Parity::Even => termios.cflag |= PARENB,
        Parity::Odd => termios.cflag |= PARENB | PARODD,
    }
    if parity != Parity::None {
        termios.iflag |= INPCK | IGNPAR;
    }
    checked(unsafe { tcsetattr(fd, TCSANOW, &termios) }).map(|_| ())
}

/// Nobody else may open the terminal.
pub fn set_exclusive(terminal: &File) -> io::Result<()> {
    checked(unsafe { ioctl(terminal.as_raw_fd(), TIOCEXCL) }).map(|_| ())
}

/// Drops what the terminal has not delivered, both ways.
pub fn flush_terminal(terminal: &File) {
    // It fails where the terminal is gone, and then there is nothing to drop.
    unsafe { tcflush(terminal.as_raw_fd(), TCIOFLUSH) };
}

/// Drops what the terminal has received and nobody has read.
pub fn flush_terminal_input(terminal: &File) {
    unsafe { tcflush(terminal.as_raw_fd(), TCIFLUSH) };
}

/// The master of a new pseudo-terminal, and the path of its slave.
pub fn open_pty() -> io::Result<(File, String)> {
    let master = owned(unsafe { posix_openpt(O_RDWR | O_NOCTTY | O_NONBLOCK | O_CLOEXEC) })?;
    let fd = master.as_raw_fd();
    let mut name = [0 as c_char; 128];
    // The buffer lives through the call, and its length is given.
    unsafe {
        checked(grantpt(fd))?;
        checked(unlockpt(fd))?;
        match ptsname_r(fd, name.as_mut_ptr(), name.len()) {
            0 => {}
            error => return Err(io::Error::from_raw_os_error(error)),
        }
    }
    // It ended well, so the name ends in a zero.
    let path = unsafe { CStr::from_ptr(name.as_ptr()) }.to_string_lossy().into_owned();
    Ok((master, path))
}

/// A descriptor that tells when a file is opened and closed.
pub fn watch_opens(path: &Path) -> io::Result<File> {
    use std::os::unix::ffi::OsStrExt;
    let watch = owned(unsafe { inotify_init1(O_NONBLOCK | O_CLOEXEC) })?;
    let path = CString::new(path.as_os_str().as_bytes())?;
    // The path ends in a zero and lives through the call.
    checked(unsafe { inotify_add_watch(watch.as_raw_fd(), path.as_ptr(), IN_CLOSE | IN_OPEN) })?;
    Ok(watch)
}

/// The masks of the events that a watch has to tell, in order.
pub fn watched_events(mut watch: &File, mut each: impl FnMut(u32)) {
    const HEAD: usize = 4 * size_of::<u32>();
    let mut buffer = [0; 4096];
    while let Ok(count) = watch.read(&mut buffer) {
        let mut rest = &buffer[..count];
        while rest.len() >= HEAD {
            let number = |at: usize| u32::from_ne_bytes(rest[at..at + 4].try_into().unwrap());
            let length = HEAD + number(12) as usize;
            each(number(4));
            rest = &rest[length.min(rest.len())..];
        }
        if count == 0 {
            return;
        }
    }
}
