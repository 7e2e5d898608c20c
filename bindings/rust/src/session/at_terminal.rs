//! A run of a session at a terminal. The library hears the signals of the process meanwhile, so a process has one run at a time.
use super::Session;
use crate::ffi;
use std::ffi::CString;
use std::fs::File;
use std::io;
use std::os::raw::c_int;
use std::os::unix::io::{AsFd, AsRawFd};
use std::sync::{Mutex, MutexGuard, TryLockError};

/// `EBUSY` of the C library.
const IS_BUSY: i32 = 16;

/// Held from before a run until its signal has acted: what a later run keeps of the handlers is then the program's own.
static RUNNING: Mutex<()> = Mutex::new(());

extern "C" {
    fn raise(signal: c_int) -> c_int;
}

impl Session {
    /// Has the user choose at the program's terminal, until the session waits no more: in raw mode, with new sizes, stops, and the
    /// editor of a message. The window's title is `title`, in ASCII without controls. [`end`](Session::end) says how it ended.
    ///
    /// If a signal asks the process to end, the terminal is given back first, and then the signal acts.
    ///
    /// # Errors
    ///
    /// - The error of the system, if there is no terminal, or it is gone; or if an allocation failed.
    /// - `EBUSY`: another thread is in a run. The session is as it was, and nothing was done to the terminal. A process has one run at
    ///   a time, since a run hears the signals of the whole process.
    pub fn run(&mut self, title: &str) -> io::Result<()> {
        let terminal = File::options().read(true).write(true).open("/dev/tty")?;
        self.run_on(&terminal, title)
    }

    /// Has the user choose at `terminal`, an open file, as [`run`](Session::run) does at the program's terminal.
    ///
    /// # Errors
    ///
    /// Those of [`run`](Session::run).
    pub fn run_on(&mut self, terminal: &impl AsFd, title: &str) -> io::Result<()> {
        let title = CString::new(title)?;
        let terminal = terminal.as_fd().as_raw_fd();
        let _running = only_run()?;
        // SAFETY: the handle is this session's alone, the title ends in a NUL, and the file stays open as long as `terminal` is
        // borrowed. No other thread is in this call.
        match unsafe { ffi::gabro_run(self.at(), terminal, title.as_ptr()) } {
            0 => Ok(()),
            number if number > 0 => {
                // SAFETY: any number may be raised.
                unsafe { raise(number) };
                Ok(())
            }
            _ => Err(io::Error::last_os_error()),
        }
    }
}

/// Returns what only one thread at a time holds: a run.
fn only_run() -> io::Result<MutexGuard<'static, ()>> {
    match RUNNING.try_lock() {
        Ok(running) => Ok(running),
        Err(TryLockError::Poisoned(poisoned)) => Ok(poisoned.into_inner()),
        Err(TryLockError::WouldBlock) => Err(io::Error::from_raw_os_error(IS_BUSY)),
    }
}
