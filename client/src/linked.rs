//! The proved library, linked in: an engine in a thread of the process.

use crate::server::Server;
use std::ffi::c_int;
use std::io;
use std::os::fd::AsRawFd;
use std::os::unix::net::UnixStream;
use std::thread;

extern "C" {
    /// Serves frames until the input ends or the output takes no more. It closes neither.
    fn cuminhamper_serve(input: i32, output: i32);

    fn sigfillset(set: *mut SignalSet) -> c_int;
    fn pthread_sigmask(how: c_int, set: *const SignalSet, before: *mut SignalSet) -> c_int;
}

/// As large as `sigset_t` of glibc and musl.
#[repr(C)]
struct SignalSet([u64; 16]);

const SIG_SETMASK: c_int = 2;
/// What cuminhamper.h asks for.
const STACK: usize = 1 << 20;

impl Server {
    pub(crate) fn start() -> io::Result<(Server, UnixStream)> {
        let (ours, theirs) = UnixStream::pair()?;
        let serve = move || {
            let descriptor = theirs.as_raw_fd();
            // The socket is open until the call returns, and nobody else has this end of it.
            unsafe { cuminhamper_serve(descriptor, descriptor) };
        };
        let spawn = || thread::Builder::new().name("engine".into()).stack_size(STACK).spawn(serve);
        Ok((Server::Thread(Some(without_signals(spawn)?)), ours))
    }
}

/// Threads that are made meanwhile take no signals: a signal is the host's, and would cut the
/// engine's read short.
fn without_signals<T>(make: impl FnOnce() -> T) -> T {
    let (mut all, mut before) = (SignalSet([0; 16]), SignalSet([0; 16]));
    // Both sets are as large as the functions expect, and live through the calls.
    unsafe {
        sigfillset(&mut all);
        pthread_sigmask(SIG_SETMASK, &all, &mut before);
    }
    let made = make();
    unsafe { pthread_sigmask(SIG_SETMASK, &before, std::ptr::null_mut()) };
    made
}
