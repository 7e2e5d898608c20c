//! Sessions that run on terminals, in several threads.
use scm_record::session::{End, Session, Stage};
use std::fs::{File, OpenOptions};
use std::io::{self, Read, Write};
use std::os::raw::{c_char, c_int, c_short, c_ulong};
use std::os::unix::fs::OpenOptionsExt;
use std::os::unix::io::{AsRawFd, FromRawFd};
use std::sync::atomic::{AtomicUsize, Ordering};
use std::sync::{Mutex, PoisonError};
use std::time::Duration;
use std::{ffi::CStr, process, thread};

const READ_AND_WRITE: c_int = 2;
/// The terminal does not become that of the process.
const NOT_OURS: c_int = 0o400;
const IS_READABLE: c_short = 1;
const SIGNAL: c_int = 15;
const IS_BUSY: Option<i32> = Some(16);

/// How the terminal is taken.
const TAKEN: &[u8] = b"\x1b[?1049h";

#[repr(C)]
struct PollFile {
    file: c_int,
    asked: c_short,
    told: c_short,
}

extern "C" {
    fn posix_openpt(flags: c_int) -> c_int;
    fn grantpt(file: c_int) -> c_int;
    fn unlockpt(file: c_int) -> c_int;
    fn ptsname_r(file: c_int, name: *mut c_char, room: usize) -> c_int;
    fn tcgetattr(file: c_int, settings: *mut u8) -> c_int;
    fn poll(files: *mut PollFile, count: c_ulong, milliseconds: c_int) -> c_int;
    fn signal(number: c_int, handler: usize) -> usize;
    fn kill(process: c_int, number: c_int) -> c_int;
    fn raise(number: c_int) -> c_int;
}

/// A pseudo terminal: the file that a program has, and the one of the user.
struct Terminal {
    program: File,
    user: File,
}

impl Terminal {
    fn new() -> Terminal {
        let mut name = [0; 64];
        // SAFETY: the file is this function's, and `name` has the room that is told.
        let user = unsafe {
            let file = posix_openpt(READ_AND_WRITE | NOT_OURS);
            assert!(file >= 0 && grantpt(file) == 0 && unlockpt(file) == 0);
            assert_eq!(ptsname_r(file, name.as_mut_ptr(), name.len()), 0);
            File::from_raw_fd(file)
        };
        // SAFETY: the C library has written a text that ends in a NUL.
        let name = unsafe { CStr::from_ptr(name.as_ptr()) };
        let mut options = OpenOptions::new();
        options.read(true).write(true).custom_flags(NOT_OURS);
        let program = options.open(name.to_str().unwrap()).unwrap();
        Terminal { program, user }
    }

    /// Returns the settings, as bytes.
    fn settings(&self) -> [u8; 256] {
        let mut settings = [0; 256];
        // SAFETY: the settings have room for those of any system.
        let status = unsafe { tcgetattr(self.program.as_raw_fd(), settings.as_mut_ptr()) };
        assert_eq!(status, 0);
        settings
    }

    fn press(&self, keys: &str) {
        (&self.user).write_all(keys.as_bytes()).unwrap();
    }

    /// Returns what the program has written since the last call, within some milliseconds.
    fn shown(&self) -> Vec<u8> {
        let mut asked = PollFile {
            file: self.user.as_raw_fd(),
            asked: IS_READABLE,
            told: 0,
        };
        // SAFETY: there is one file to wait for.
        if unsafe { poll(&mut asked, 1, 20) } <= 0 {
            return Vec::new();
        }
        let mut bytes = vec![0; 1 << 16];
        let count = (&self.user).read(&mut bytes).unwrap();
        bytes.truncate(count);
        bytes
    }

    /// Waits until the program has taken the terminal.
    fn wait_until_taken(&self) {
        let mut shown = Vec::new();
        while !shown.windows(TAKEN.len()).any(|bytes| bytes == TAKEN) {
            shown.extend(self.shown());
        }
    }
}

fn begun() -> Session {
    let mut session = Session::new(false).unwrap();
    session.begin(80, 24).unwrap();
    session
}

/// Runs a session on `terminal`. Returns how it ended, if it was not refused.
fn run_on(terminal: &Terminal) -> io::Result<Option<End>> {
    let mut session = begun();
    let ended = session.run_on(&terminal.program, "a run");
    if ended.is_err() {
        assert_eq!(session.stage(), Stage::Waiting);
    }
    ended.map(|()| session.end())
}

/// How many signals the program's own handler has heard.
static HEARD: AtomicUsize = AtomicUsize::new(0);

extern "C" fn hear(_: c_int) {
    HEARD.fetch_add(1, Ordering::SeqCst);
}

/// Calls `call` where the program has a handler of its own, one test at a time. Returns how many signals that has heard.
fn heard_by_program(call: impl FnOnce()) -> usize {
    static ONE_TEST: Mutex<()> = Mutex::new(());
    let _one = ONE_TEST.lock().unwrap_or_else(PoisonError::into_inner);
    // SAFETY: the handler only counts.
    let before = unsafe { signal(SIGNAL, hear as extern "C" fn(c_int) as usize) };
    let count_before = HEARD.load(Ordering::SeqCst);
    call();
    // SAFETY: the handler is that from before.
    unsafe { signal(SIGNAL, before) };
    HEARD.load(Ordering::SeqCst) - count_before
}

/// Sends the signal to this thread, whose handler has returned then.
fn raise_signal() {
    // SAFETY: the process has a handler of the signal.
    assert_eq!(unsafe { raise(SIGNAL) }, 0);
}

/// Sends the signal to the process.
fn send_signal() {
    // SAFETY: the process has a handler of the signal.
    assert_eq!(unsafe { kill(process::id() as c_int, SIGNAL) }, 0);
}

#[test]
fn a_second_run_at_a_time_is_refused() {
    let heard = heard_by_program(|| {
        let (first, second) = (Terminal::new(), Terminal::new());
        let settings = second.settings();
        thread::scope(|scope| {
            let run = scope.spawn(|| run_on(&first));
            first.wait_until_taken();
            let refused = scope.spawn(|| run_on(&second));
            // if that is not refused, it is over when a key is heard
            while !refused.is_finished() {
                second.press("q");
                thread::sleep(Duration::from_millis(10));
            }
            first.press("q");
            assert_eq!(run.join().unwrap().unwrap(), Some(End::Cancelled));
            let error = refused.join().unwrap().unwrap_err();
            assert_eq!(error.raw_os_error(), IS_BUSY, "{error}");
        });
        assert!(second.settings() == settings);
        raise_signal();
    });
    assert_eq!(heard, 1);
}

#[test]
fn a_signal_acts_behind_the_run_that_heard_it() {
    let heard = heard_by_program(|| {
        let terminal = Terminal::new();
        let settings = terminal.settings();
        thread::scope(|scope| {
            let run = scope.spawn(|| run_on(&terminal));
            terminal.wait_until_taken();
            send_signal();
            assert_eq!(run.join().unwrap().unwrap(), None);
        });
        assert!(terminal.settings() == settings);
    });
    assert_eq!(heard, 1);
}

/// Runs a session on `terminal` as soon as no other thread does. Its user cancels.
fn run_in_turn(terminal: &Terminal) {
    thread::scope(|scope| {
        scope.spawn(|| {
            terminal.wait_until_taken();
            terminal.press("q");
        });
        while let Err(error) = run_on(terminal) {
            assert_eq!(error.raw_os_error(), IS_BUSY, "{error}");
            thread::sleep(Duration::from_millis(1));
        }
    });
}

#[test]
fn threads_have_their_runs_one_by_one() {
    let heard = heard_by_program(|| {
        thread::scope(|scope| {
            for _ in 0..4 {
                scope.spawn(|| run_in_turn(&Terminal::new()));
            }
        });
        raise_signal();
    });
    assert_eq!(heard, 1);
}
