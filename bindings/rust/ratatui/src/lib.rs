//! The selector as a widget of ratatui: a session within a part of the host's screen.
//!
//! The host renders [`Selector`] with its session into an area, hands the session what is typed, and its clicks by
//! [`place_within`]. Rendering changes no cell outside of the area.
//!
//! ```
//! use gabrosty_ratatui::Selector;
//! use ratatui::buffer::Buffer;
//! use ratatui::layout::Rect;
//! use ratatui::widgets::StatefulWidget;
//! use scm_record::session::{LineKind, Session};
//! use scm_record::{ChangeType, FileMode};
//!
//! # fn main() -> Result<(), scm_record::session::Error> {
//! let mut session = Session::new(false)?;
//! session.add_file("letter", None, FileMode::FILE_DEFAULT)?;
//! session.add_lines(LineKind::changed(ChangeType::Added), "new\n")?;
//! session.begin(30, 5)?;
//! let mut buffer = Buffer::empty(Rect::new(0, 0, 40, 8));
//! Selector.render(Rect::new(4, 2, 30, 5), &mut buffer, &mut session);
//! # Ok(())
//! # }
//! ```
#![warn(missing_docs, missing_debug_implementations)]
#![forbid(unsafe_code)]

use ratatui::buffer::Buffer;
use ratatui::layout::Rect;
use ratatui::style::{Color, Modifier, Style};
use ratatui::widgets::StatefulWidget;
use scm_record::session::{Cell, CellStyle, Colour, Session};

/// Shows a session that waits for an event. Any other one shows nothing.
#[derive(Clone, Copy, Debug, Default)]
pub struct Selector;

impl StatefulWidget for Selector {
    type State = Session;

    /// Gives the session the size of `area`, and draws it there. If that cannot be had, as there is no memory, draws nothing.
    fn render(self, area: Rect, buf: &mut Buffer, session: &mut Session) {
        let area = area.intersection(buf.area);
        let Some(rows) = cells_of(session, area) else {
            return;
        };
        for (row, cells) in (area.y..area.bottom()).zip(&rows) {
            draw_row(area, row, cells, buf);
        }
    }
}

/// Returns whether `rows` have the size of `area`.
fn have_size(rows: &[Vec<Cell>], area: Rect) -> bool {
    let is_wide = |row: &Vec<Cell>| row.len() == usize::from(area.width);
    rows.len() == usize::from(area.height) && rows.iter().all(is_wide)
}

/// Returns the rows of `session`, which gets the size of `area` if it has another one.
fn cells_of(session: &mut Session, area: Rect) -> Option<Vec<Vec<Cell>>> {
    let rows = session.cells().ok()?;
    if have_size(&rows, area) {
        return Some(rows);
    }
    session.resize(area.width, area.height).ok()?;
    session.cells().ok()
}

/// Draws `cells` on row `row` of the screen, within `area`.
fn draw_row(area: Rect, row: u16, cells: &[Cell], buf: &mut Buffer) {
    for (column, cell) in (area.x..area.right()).zip(cells) {
        if cell.columns == 0 {
            continue;
        }
        let style = style_of(cell.style);
        let room = cell.columns.min(usize::from(area.right() - column));
        // a symbol to which ratatui gives more columns than the library leaves blanks
        buf.set_stringn(column, row, " ".repeat(room), room, style);
        buf.set_stringn(column, row, &cell.symbol, room, style);
    }
}

/// Returns the style of ratatui for `style`. It takes all that was there away.
fn style_of(style: CellStyle) -> Style {
    let flags = [
        (style.is_bold, Modifier::BOLD),
        (style.is_dim, Modifier::DIM),
        (style.is_underlined, Modifier::UNDERLINED),
        (style.is_reversed, Modifier::REVERSED),
    ];
    let on = flags.iter().filter(|(is_on, _)| *is_on);
    on.fold(
        Style::reset()
            .fg(colour_of(style.foreground))
            .bg(colour_of(style.background)),
        |sum, (_, flag)| sum.add_modifier(*flag),
    )
}

/// Returns the colour of ratatui for `colour`, or the terminal's own.
fn colour_of(colour: Option<Colour>) -> Color {
    match colour {
        None => Color::Reset,
        Some(Colour::Black) => Color::Black,
        Some(Colour::Red) => Color::Red,
        Some(Colour::Green) => Color::Green,
        Some(Colour::Yellow) => Color::Yellow,
        Some(Colour::Blue) => Color::Blue,
        Some(Colour::Magenta) => Color::Magenta,
        Some(Colour::Cyan) => Color::Cyan,
        Some(Colour::White) => Color::Gray,
    }
}

/// Returns the row and column within `area` of a place of the host's screen, for [`Session::click`], or `None` if it is outside.
#[must_use]
pub fn place_within(area: Rect, row: u16, column: u16) -> Option<(u16, u16)> {
    let is_within =
        (area.y..area.bottom()).contains(&row) && (area.x..area.right()).contains(&column);
    is_within.then(|| (row - area.y, column - area.x))
}
