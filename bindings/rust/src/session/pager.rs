//! A side of a file on a screen, as accepting now would write it.
use super::{bytes_of, done, Error, Session, Side};
use crate::ffi;

/// The first room for the bytes of a page.
const PAGE_ROOM: usize = 1 << 14;

/// Where a pager stands, which shows a side of a file line by line. [`Session::pager`] opens one.
///
/// What is typed while it is open goes to [`Session::type_in_pager`], and [`Session::paint_pager`] returns what the terminal shows. Once it
/// is closed, [`Session::repaint`] makes the next [`Session::paint`] return every row. `gabrosty.h` lists its keys.
#[derive(Clone, Copy, Debug, Eq, PartialEq)]
pub struct Pager {
    at: ffi::Pager,
}

impl Pager {
    /// The file that it shows, counted from 0.
    #[must_use]
    pub fn file(&self) -> usize {
        self.at.file
    }

    /// The line on the first row of the screen, counted from 0.
    #[must_use]
    pub fn top(&self) -> usize {
        self.at.top
    }

    /// How many columns of each line stand to the left of the screen.
    #[must_use]
    pub fn left(&self) -> u16 {
        self.at.left
    }

    /// The side that it shows.
    #[must_use]
    pub fn side(&self) -> Side {
        if self.at.selected {
            Side::Selected
        } else {
            Side::Unselected
        }
    }

    /// Whether it has not been closed.
    #[must_use]
    pub fn is_open(&self) -> bool {
        self.at.is_open
    }
}

impl Session {
    /// Returns a pager at the top of file `file`, counted from 0: on the side `side`, as accepting now would write it.
    ///
    /// # Errors
    ///
    /// Those of [`file_count`](Session::file_count), and `NoItem` if there is no such file.
    pub fn pager(&self, file: usize, side: Side) -> Result<Pager, Error> {
        let mut at = ffi::Pager::default();
        let is_selected = side == Side::Selected;
        // SAFETY: `at` is what the call writes to.
        done(unsafe { ffi::gabro_pager_open(self.at(), file, is_selected, &mut at) })?;
        Ok(Pager { at })
    }

    /// Brings line `line` of section `section` of its file, both counted from 0, onto a terminal of `height` rows: `pager` then begins a third
    /// of a page above it, or as near as the ends of the file are. A line that the side lacks counts as the next one that it has.
    ///
    /// # Errors
    ///
    /// Those of [`pager`](Session::pager). `pager` is as it was then.
    pub fn show_in_pager(
        &self,
        pager: &mut Pager,
        section: usize,
        line: usize,
        height: u16,
    ) -> Result<(), Error> {
        // SAFETY: the pager is what the call reads and writes.
        done(unsafe { ffi::gabro_pager_show(self.at(), &mut pager.at, section, line, height) })
    }

    /// Hands `bytes`, which a terminal of `width` columns and `height` rows sent before a silence, to `pager`.
    ///
    /// # Errors
    ///
    /// Those of [`pager`](Session::pager), or `NoMemory`. `pager` is as it was then.
    pub fn type_in_pager(
        &self,
        pager: &mut Pager,
        bytes: &[u8],
        width: u16,
        height: u16,
    ) -> Result<(), Error> {
        let (at, length) = (bytes.as_ptr().cast(), bytes.len());
        // SAFETY: the bytes are as many as their length says.
        done(unsafe {
            ffi::gabro_pager_type(self.at(), &mut pager.at, at, length, width, height)
        })
    }

    /// Returns the bytes that make a terminal of `width` columns and `height` rows show `pager`, whatever that shows before.
    ///
    /// # Errors
    ///
    /// Those of [`pager`](Session::pager), or `NoMemory`.
    pub fn paint_pager(&self, pager: &Pager, width: u16, height: u16) -> Result<Vec<u8>, Error> {
        // SAFETY: `out` has room for as many bytes as `room` says.
        bytes_of(PAGE_ROOM, |out, room, length| unsafe {
            ffi::gabro_pager_paint(self.at(), &pager.at, width, height, out, room, length)
        })
    }
}
