//! The events of what a terminal sends, by the decoder of the library.
use crate::screen::Size;
use crate::session::{Error, Session};
use crate::terminal::device;
use crate::Event;
use std::cell::{Cell, RefCell};
use std::io;
use std::os::raw::c_int;

/// A time without bytes, in milliseconds, that tells the key Esc from the beginning of another key.
const SILENCE: c_int = 50;

/// A time, in milliseconds, after which the size of the terminal is looked at.
const LOOK: c_int = 250;

thread_local! {
    /// The decoder of what the terminal sends: that of a session which does not begin.
    static DECODER: RefCell<Option<Session>> = const { RefCell::new(None) };
    /// Whether the decoder has heard of the silence that is now.
    static WAS_SILENT: Cell<bool> = const { Cell::new(true) };
    /// The size of the terminal, at the last look.
    static SIZE: Cell<Option<Size>> = const { Cell::new(None) };
}

/// Waits until the terminal sends a key or a click, or has another size. Returns the events of that.
pub(crate) fn read_events() -> io::Result<Vec<Event>> {
    if SIZE.with(Cell::get).is_none() {
        has_new_size()?;
    }
    loop {
        let was_silent = WAS_SILENT.with(Cell::get);
        let sent = device::read(if was_silent { LOOK } else { SILENCE })?;
        if sent.is_some() || !was_silent {
            WAS_SILENT.with(|it| it.set(sent.is_none()));
            let events = decode(sent.as_deref())
                .map_err(|error| io::Error::new(io::ErrorKind::Other, error))?;
            if !events.is_empty() {
                return Ok(events);
            }
        } else if has_new_size()? {
            return Ok(vec![Event::None]);
        }
    }
}

/// Returns the events of bytes from the terminal, or of a silence.
fn decode(sent: Option<&[u8]>) -> Result<Vec<Event>, Error> {
    DECODER.with(|decoder| {
        let mut decoder = decoder.borrow_mut();
        let session = match decoder.take() {
            Some(session) => session,
            None => Session::new(false)?,
        };
        let session = decoder.insert(session);
        match sent {
            Some(bytes) => session.decode(bytes),
            None => session.decode_idle(),
        }
    })
}

/// Returns whether the terminal has another size than at the last look.
fn has_new_size() -> io::Result<bool> {
    let size = Some(device::size()?);
    let before = SIZE.with(|it| it.replace(size));
    Ok(before.is_some() && before != size)
}
