//! The terminal of the program: raw mode, its second screen, and clicks.
use crate::error::Cause;
use crate::recorder::failure;
use crate::screen::{Screen, Size};
use crate::session::Session;
use crate::RecordError;
use std::io::{self, Write};
use std::panic;
use std::sync::{Mutex, MutexGuard, Once, PoisonError};
use std::thread::{self, ThreadId};

#[cfg(feature = "crossterm")]
#[path = "terminal/by_crossterm.rs"]
mod device;
#[cfg(not(feature = "crossterm"))]
#[path = "terminal/by_termios.rs"]
pub(crate) mod device;

/// Takes the second screen, hides the cursor, asks for clicks and for marks around what is pasted, and clears.
const TAKE: &str = "\x1b[?1049h\x1b[?25l\x1b[?1000;1002;1006h\x1b[?2004h\x1b[0m\x1b[2J";

/// Gives all of that back, also where a paint was cut off: an update ends, and symbols wrap.
const GIVE_BACK: &str = "\x1b[?2026l\x1b[?7h\x1b[0m\x1b[?2004l\x1b[?1000;1002;1006l\x1b[?25h\x1b[?1049l";

const CLEAR: &str = "\x1b[0m\x1b[2J";
/// What is written where nothing has changed: so who types into the program sees that it was heard.
const NO_CHANGE: &str = "\x1b[?2026h\x1b[?2026l";

/// The thread that has taken the terminal, if one has.
static TAKEN_BY: Mutex<Option<ThreadId>> = Mutex::new(None);

/// The program's terminal while a run has it. It is given back when this is dropped.
///
/// If the program itself has set raw mode, the terminal stays as it is, before the run and after it.
pub(crate) struct Terminal {
    shown: Option<Size>,
    is_ours: bool,
}

impl Terminal {
    /// Returns the size of the terminal, before it is taken.
    pub fn size_before() -> Result<Size, RecordError> {
        device::size().map_err(not_set_up)
    }

    /// Takes the terminal.
    pub fn take() -> Result<Terminal, RecordError> {
        // if what follows fails, this is dropped
        let mut terminal = Terminal {
            shown: None,
            is_ours: !device::is_raw().map_err(not_set_up)?,
        };
        if terminal.is_ours {
            give_back_at_panics();
        }
        terminal.take_again()?;
        Ok(terminal)
    }
}

impl Drop for Terminal {
    fn drop(&mut self) {
        if self.is_ours {
            // no one is left to hear of an error
            let _ = release();
        }
    }
}

impl Screen for Terminal {
    fn size(&mut self) -> Result<Size, RecordError> {
        device::size().map_err(not_drawn)
    }

    fn show(&mut self, session: &mut Session) -> Result<(), RecordError> {
        let size = self.size()?;
        if self.shown != Some(size) {
            session.resize(size.width, size.height).map_err(failure)?;
            write(CLEAR).map_err(not_drawn)?;
            self.shown = Some(size);
        }
        let frame = session.paint().map_err(failure)?;
        if frame.is_empty() {
            return write(NO_CHANGE).map_err(not_drawn);
        }
        write(frame).map_err(not_drawn)
    }

    fn give_back(&mut self) -> Result<(), RecordError> {
        if self.is_ours {
            release().map_err(|error| RecordError::CleanUpTerminal(error.into()))?;
        }
        Ok(())
    }

    fn take_again(&mut self) -> Result<(), RecordError> {
        if self.is_ours {
            device::set_raw().map_err(not_set_up)?;
            *taken_by() = Some(thread::current().id());
            write(TAKE).map_err(not_set_up)?;
        }
        self.shown = None;
        Ok(())
    }
}

fn not_set_up(error: io::Error) -> RecordError {
    RecordError::SetUpTerminal(error.into())
}

fn not_drawn(error: impl Into<Cause>) -> RecordError {
    RecordError::RenderFrame(error.into())
}

/// Writes to the terminal, which is the standard output.
fn write(bytes: impl AsRef<[u8]>) -> io::Result<()> {
    let mut output = io::stdout().lock();
    output.write_all(bytes.as_ref())?;
    output.flush()
}

/// Returns the place of the thread that has the terminal.
fn taken_by() -> MutexGuard<'static, Option<ThreadId>> {
    TAKEN_BY.lock().unwrap_or_else(PoisonError::into_inner)
}

/// Gives the terminal back, if it is taken.
fn release() -> io::Result<()> {
    if taken_by().take().is_none() {
        return Ok(());
    }
    let written = write(GIVE_BACK);
    device::set_as_before()?;
    written
}

/// Has a panic give the terminal back before it says why: on the second screen its words would be lost. A panic of another
/// thread leaves the terminal to the run, unless it ends the process.
fn give_back_at_panics() {
    static IS_HOOKED: Once = Once::new();
    IS_HOOKED.call_once(|| {
        let hook_before = panic::take_hook();
        panic::set_hook(Box::new(move |why| {
            if cfg!(panic = "abort") || *taken_by() == Some(thread::current().id()) {
                let _ = release();
            }
            hook_before(why);
        }));
    });
}
