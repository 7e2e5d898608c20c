//! Raw mode and the size of a terminal, by crossterm.
use crate::screen::Size;
use crossterm::terminal;
use std::io;

/// Returns whether the terminal is in raw mode, as far as crossterm knows.
pub fn is_raw() -> io::Result<bool> {
    terminal::is_raw_mode_enabled()
}

/// Sets raw mode.
pub fn set_raw() -> io::Result<()> {
    terminal::enable_raw_mode()
}

/// Sets the mode that was before raw mode.
pub fn set_as_before() -> io::Result<()> {
    terminal::disable_raw_mode()
}

/// Returns the size of the terminal.
pub fn size() -> io::Result<Size> {
    let (width, height) = terminal::size()?;
    Ok(Size { width, height })
}
