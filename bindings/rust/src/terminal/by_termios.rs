//! Raw mode, the size and the input of a terminal, by the C library alone.
use crate::screen::Size;
use std::fs::File;
use std::io::{self, Read};
use std::mem::ManuallyDrop;
use std::os::raw::{c_int, c_short, c_ulong};
use std::os::unix::io::{AsRawFd, FromRawFd, RawFd};
use std::sync::{Mutex, PoisonError};

/// The settings of a terminal: a `struct termios`, which only the C library reads. It has 60 bytes on Linux.
#[repr(C, align(16))]
#[derive(Clone, Copy)]
struct Settings([u8; 256]);

#[repr(C)]
#[derive(Default)]
struct WindowSize {
    rows: u16,
    columns: u16,
    pixels: [u16; 2],
}

#[repr(C)]
struct PollFile {
    file: c_int,
    asked: c_short,
    told: c_short,
}

const SET_NOW: c_int = 0;
const GET_WINDOW_SIZE: c_ulong = 0x5413;
const IS_READABLE: c_short = 1;

extern "C" {
    fn isatty(file: c_int) -> c_int;
    fn tcgetattr(file: c_int, settings: *mut Settings) -> c_int;
    fn tcsetattr(file: c_int, when: c_int, settings: *const Settings) -> c_int;
    fn cfmakeraw(settings: *mut Settings);
    fn ioctl(file: c_int, request: c_ulong, ...) -> c_int;
    fn poll(files: *mut PollFile, count: c_ulong, milliseconds: c_int) -> c_int;
}

/// The settings before raw mode, while that is set.
static SETTINGS_BEFORE: Mutex<Option<Settings>> = Mutex::new(None);

/// Calls `call` with the terminal's file: standard input, or `/dev/tty` if that is no terminal.
fn with_file<T>(call: impl FnOnce(RawFd) -> io::Result<T>) -> io::Result<T> {
    let standard = io::stdin().as_raw_fd();
    // SAFETY: any number may be asked for.
    if unsafe { isatty(standard) } == 1 {
        return call(standard);
    }
    let terminal = File::open("/dev/tty")?;
    call(terminal.as_raw_fd())
}

/// Returns the error of a call that returned `status`, if that is not 0.
fn check(status: c_int) -> io::Result<()> {
    if status == 0 {
        Ok(())
    } else {
        Err(io::Error::last_os_error())
    }
}

/// Returns whether this program has set raw mode.
pub fn is_raw() -> io::Result<bool> {
    Ok(SETTINGS_BEFORE
        .lock()
        .unwrap_or_else(PoisonError::into_inner)
        .is_some())
}

/// Sets raw mode.
pub fn set_raw() -> io::Result<()> {
    with_file(|file| {
        let mut before = Settings([0; 256]);
        // SAFETY: the settings have room for those of any system, and are this call's alone.
        let raw = unsafe {
            check(tcgetattr(file, &mut before))?;
            let mut raw = before;
            cfmakeraw(&mut raw);
            raw
        };
        // SAFETY: the C library has written these settings.
        check(unsafe { tcsetattr(file, SET_NOW, &raw) })?;
        *SETTINGS_BEFORE
            .lock()
            .unwrap_or_else(PoisonError::into_inner) = Some(before);
        Ok(())
    })
}

/// Sets the mode that was before raw mode.
pub fn set_as_before() -> io::Result<()> {
    let before = SETTINGS_BEFORE
        .lock()
        .unwrap_or_else(PoisonError::into_inner)
        .take();
    match before {
        // SAFETY: the C library has written these settings.
        Some(before) => with_file(|file| check(unsafe { tcsetattr(file, SET_NOW, &before) })),
        None => Ok(()),
    }
}

/// Returns the size of the terminal, or 80 by 24 if it has none.
pub fn size() -> io::Result<Size> {
    let mut size = WindowSize::default();
    // SAFETY: this request writes a window's size.
    with_file(|file| check(unsafe { ioctl(file, GET_WINDOW_SIZE, &mut size) }))?;
    let (width, height) = match (size.columns, size.rows) {
        (0, _) | (_, 0) => (80, 24),
        size => size,
    };
    Ok(Size { width, height })
}

/// Returns the bytes that the terminal sends, or `None` if it sends none for `milliseconds`. A signal ends the wait too.
pub fn read(milliseconds: c_int) -> io::Result<Option<Vec<u8>>> {
    with_file(|file| {
        let mut asked = PollFile {
            file,
            asked: IS_READABLE,
            told: 0,
        };
        // SAFETY: there is one file to wait for.
        if unsafe { poll(&mut asked, 1, milliseconds) } <= 0 {
            return Ok(None);
        }
        let mut bytes = vec![0; 4096];
        // SAFETY: the file is open while `with_file` calls this, and it is not closed here.
        let mut terminal = ManuallyDrop::new(unsafe { File::from_raw_fd(file) });
        let count = terminal.read(&mut bytes)?;
        if count == 0 {
            return Err(io::ErrorKind::UnexpectedEof.into());
        }
        bytes.truncate(count);
        Ok(Some(bytes))
    })
}
