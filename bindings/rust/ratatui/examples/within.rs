//! The selector within a host's screen, at a terminal: `within OLD NEW` shows a frame of `#` around it, and prints the selected side.
//!
//! A host that has a terminal of ratatui draws by that. This one writes the cells of its buffer itself, so it needs no backend.
use gabrosty_ratatui::Selector;
use ratatui::buffer::Buffer;
use ratatui::layout::Rect;
use ratatui::style::Style;
use ratatui::widgets::StatefulWidget;
use scm_record::session::{End, Session, Side, Stage, Version};
use scm_record::FileMode;
use std::error::Error;
use std::io::{self, Read, Write};
use std::process::Command;

/// The host's screen, and where the selector is in it.
const SCREEN: Rect = Rect::new(0, 0, 60, 16);
const AREA: Rect = Rect::new(5, 3, 50, 10);

/// Returns the bytes of a frame.
fn frame(session: &mut Session) -> String {
    let mut buffer = Buffer::empty(SCREEN);
    for row in 0..SCREEN.height {
        for column in 0..SCREEN.width {
            buffer.set_stringn(column, row, "#", 1, Style::default());
        }
    }
    Selector.render(AREA, &mut buffer, session);
    let mut text = String::new();
    for (row, cells) in (1..).zip(buffer.content.chunks(SCREEN.width.into())) {
        text += &format!("\x1b[{row};1H");
        text.extend(cells.iter().map(|cell| cell.symbol()));
    }
    text
}

/// Has the user choose, at a terminal in raw mode.
fn choose(session: &mut Session) -> Result<(), Box<dyn Error>> {
    let mut typed = [0; 256];
    while session.stage() == Stage::Waiting {
        io::stdout().write_all(frame(session).as_bytes())?;
        io::stdout().flush()?;
        let count = io::stdin().read(&mut typed)?;
        session.type_bytes(&typed[..count])?;
    }
    Ok(())
}

fn main() -> Result<(), Box<dyn Error>> {
    let paths: Vec<_> = std::env::args_os().skip(1).collect();
    let [old, new] = &paths[..] else {
        return Err("usage: within OLD NEW".into());
    };
    let (old, new) = (std::fs::read(old)?, std::fs::read(new)?);
    let mode = FileMode::FILE_DEFAULT;
    let mut session = Session::new(false)?;
    session.add_versions(
        "letter",
        None,
        Version { mode, bytes: &old },
        Version { mode, bytes: &new },
    )?;
    session.begin(AREA.width, AREA.height)?;
    Command::new("stty").args(["raw", "-echo"]).status()?;
    let chosen = choose(&mut session);
    Command::new("stty").args(["sane"]).status()?;
    chosen?;
    if session.end() == Some(End::Accepted) {
        io::stdout().write_all(&session.side_bytes(0, Side::Selected)?)?;
    }
    Ok(())
}
