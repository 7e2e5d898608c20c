//! The event of what crossterm reads: the table of keys, as `docs/RULES.md` of the library has it.
use crate::Event;
use crossterm::event::{
    Event as TerminalEvent, KeyCode, KeyEventKind, KeyModifiers, MouseButton, MouseEvent,
    MouseEventKind,
};

impl From<TerminalEvent> for Event {
    /// Returns the event of a key as it goes down, of a click of the left button, or of a turn of the wheel, and else
    /// `Event::None`.
    fn from(event: TerminalEvent) -> Self {
        match event {
            TerminalEvent::Key(key) if key.kind == KeyEventKind::Press => {
                event_of_key(key.code, key.modifiers)
            }
            TerminalEvent::Mouse(mouse) => event_of_mouse(mouse),
            _ => Event::None,
        }
    }
}

/// Returns the event of a key with exactly these modifiers.
fn event_of_key(code: KeyCode, modifiers: KeyModifiers) -> Event {
    if modifiers.is_empty() {
        event_of_plain_key(code)
    } else if modifiers == KeyModifiers::CONTROL {
        event_of_control_key(code)
    } else if modifiers == KeyModifiers::SHIFT {
        event_of_shift_key(code)
    } else {
        Event::None
    }
}

/// Returns the event of a key without modifiers.
fn event_of_plain_key(code: KeyCode) -> Event {
    match code {
        KeyCode::Char('c') => Event::QuitAccept,
        KeyCode::Char('q') => Event::QuitCancel,
        KeyCode::Esc => Event::QuitEscape,
        KeyCode::Char('?') => Event::Help,
        KeyCode::Char('e') => Event::EditCommitMessage,
        KeyCode::Char(' ') => Event::ToggleItem,
        KeyCode::Enter => Event::ToggleItemAndAdvance,
        KeyCode::Char('a') => Event::ToggleAll,
        KeyCode::Up | KeyCode::Char('k') => Event::FocusPrev,
        KeyCode::Down | KeyCode::Char('j') => Event::FocusNext,
        KeyCode::PageUp => Event::FocusPrevSameKind,
        KeyCode::PageDown => Event::FocusNextSameKind,
        KeyCode::Left | KeyCode::Char('h') => Event::FocusOuter { fold_section: true },
        KeyCode::Right | KeyCode::Char('l') => Event::FocusInner,
        KeyCode::Char('f') => Event::ExpandItem,
        _ => Event::None,
    }
}

/// Returns the event of a key with control.
fn event_of_control_key(code: KeyCode) -> Event {
    match code {
        KeyCode::Char('c') => Event::QuitInterrupt,
        KeyCode::Up | KeyCode::Char('y') => Event::ScrollUp,
        KeyCode::Down | KeyCode::Char('e') => Event::ScrollDown,
        KeyCode::PageUp | KeyCode::Char('b') => Event::PageUp,
        KeyCode::PageDown | KeyCode::Char('f') => Event::PageDown,
        KeyCode::Char('u') => Event::FocusPrevPage,
        KeyCode::Char('d') => Event::FocusNextPage,
        _ => Event::None,
    }
}

/// Returns the event of a key with shift.
fn event_of_shift_key(code: KeyCode) -> Event {
    match code {
        KeyCode::Char('A') => Event::ToggleAllUniform,
        KeyCode::Left | KeyCode::Char('h') => Event::FocusOuter {
            fold_section: false,
        },
        KeyCode::Right | KeyCode::Char('l') => Event::FocusInner,
        KeyCode::Char('F') => Event::ExpandAll,
        _ => Event::None,
    }
}

/// Returns the event of the mouse, whatever its modifiers.
fn event_of_mouse(mouse: MouseEvent) -> Event {
    match mouse.kind {
        MouseEventKind::ScrollUp => Event::ScrollUp,
        MouseEventKind::ScrollDown => Event::ScrollDown,
        MouseEventKind::Down(MouseButton::Left) => Event::Click {
            row: mouse.row.into(),
            column: mouse.column.into(),
        },
        _ => Event::None,
    }
}
