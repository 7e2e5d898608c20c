//! The screen of a session as cells.
use super::{done, Error, Session};
use crate::ffi;

/// One of the eight basic colours of a terminal.
#[derive(Clone, Copy, Debug, Eq, Hash, PartialEq)]
pub enum Colour {
    /// Black.
    Black,
    /// Red.
    Red,
    /// Green.
    Green,
    /// Yellow.
    Yellow,
    /// Blue.
    Blue,
    /// Magenta.
    Magenta,
    /// Cyan.
    Cyan,
    /// White.
    White,
}

/// The colours, by their numbers from 1 on.
const COLOURS: [Colour; 8] = [
    Colour::Black,
    Colour::Red,
    Colour::Green,
    Colour::Yellow,
    Colour::Blue,
    Colour::Magenta,
    Colour::Cyan,
    Colour::White,
];

/// Returns the colour with the number `number`, or `None` for the terminal's own.
fn colour_of(number: u32) -> Option<Colour> {
    let index = number.checked_sub(1)?;
    COLOURS.get(index as usize).copied()
}

/// How a place of the screen looks.
#[derive(Clone, Copy, Debug, Default, Eq, Hash, PartialEq)]
pub struct CellStyle {
    /// The colour of the symbol, or `None` for the terminal's own.
    pub foreground: Option<Colour>,
    /// The colour of the background, or `None` for the terminal's own.
    pub background: Option<Colour>,
    /// Whether the symbol is bold.
    pub is_bold: bool,
    /// Whether the symbol is dim.
    pub is_dim: bool,
    /// Whether the symbol is underlined.
    pub is_underlined: bool,
    /// Whether the colours of the symbol and of its background are exchanged.
    pub is_reversed: bool,
}

/// One place of the screen.
#[derive(Clone, Debug, Eq, Hash, PartialEq)]
pub struct Cell {
    /// The symbol that begins here. It is empty at a later column of a symbol.
    pub symbol: String,
    /// The number of columns of the symbol that begins here. 0 at a later column of a symbol.
    pub columns: usize,
    /// How the place looks.
    pub style: CellStyle,
}

impl Cell {
    /// Returns the place that the library has written, whose symbol is a part of `text`.
    fn of(cell: &ffi::Cell, text: &[u8]) -> Cell {
        let symbol = &text[cell.start..cell.start + cell.length];
        Cell {
            symbol: String::from_utf8_lossy(symbol).into_owned(),
            columns: cell.columns,
            style: CellStyle {
                foreground: colour_of(cell.foreground),
                background: colour_of(cell.background),
                is_bold: cell.flags & ffi::BOLD != 0,
                is_dim: cell.flags & ffi::DIM != 0,
                is_underlined: cell.flags & ffi::UNDERLINED != 0,
                is_reversed: cell.flags & ffi::REVERSED != 0,
            },
        }
    }
}

/// The first room for cells, and for the bytes of their text.
const CELL_ROOM: usize = 1 << 12;

impl Session {
    /// Returns the rows of the screen, with the status row of a layer, each place with its symbol and its style: what
    /// [`paint`](Session::paint) brings a terminal to. So a host draws the selector within a screen of its own. Nothing counts as
    /// painted.
    ///
    /// # Errors
    ///
    /// `NotNow` if the session does not wait for an event, or `NoMemory`.
    pub fn cells(&self) -> Result<Vec<Vec<Cell>>, Error> {
        let mut cells = vec![ffi::Cell::default(); CELL_ROOM];
        let mut text = vec![0_u8; CELL_ROOM];
        let mut info = ffi::ScreenInfo::default();
        loop {
            let (count, room) = (cells.len(), text.len());
            let out = text.as_mut_ptr().cast();
            // SAFETY: both buffers have room for as much as their lengths say.
            done(unsafe {
                ffi::gabro_cells(self.at(), cells.as_mut_ptr(), count, out, room, &mut info)
            })?;
            cells.resize(info.columns * info.rows, ffi::Cell::default());
            text.resize(info.length, 0);
            if cells.len() <= count && text.len() <= room {
                break;
            }
        }
        let rows = cells.chunks(info.columns.max(1));
        Ok(rows
            .map(|row| row.iter().map(|cell| Cell::of(cell, &text)).collect())
            .collect())
    }
}
