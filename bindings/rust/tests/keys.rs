//! The events of crossterm's keys, by the table of the rules.
use crossterm::event::{
    Event as TerminalEvent, KeyCode, KeyEvent, KeyEventKind, KeyEventState, KeyModifiers,
    MouseButton, MouseEvent, MouseEventKind,
};
use scm_record::Event;

const NONE: KeyModifiers = KeyModifiers::NONE;
const CONTROL: KeyModifiers = KeyModifiers::CONTROL;
const SHIFT: KeyModifiers = KeyModifiers::SHIFT;

fn event_of(code: KeyCode, modifiers: KeyModifiers, kind: KeyEventKind) -> Event {
    let state = KeyEventState::NONE;
    Event::from(TerminalEvent::Key(KeyEvent {
        code,
        modifiers,
        kind,
        state,
    }))
}

fn table() -> Vec<(KeyModifiers, Vec<KeyCode>, Event)> {
    use KeyCode::{Char, Down, Enter, Esc, Left, PageDown, PageUp, Right, Up};
    let outer = |fold_section| Event::FocusOuter { fold_section };
    vec![
        (NONE, vec![Char('c')], Event::QuitAccept),
        (NONE, vec![Char('q')], Event::QuitCancel),
        (NONE, vec![Esc], Event::QuitEscape),
        (CONTROL, vec![Char('c')], Event::QuitInterrupt),
        (NONE, vec![Char('?')], Event::Help),
        (NONE, vec![Char('e')], Event::EditCommitMessage),
        (NONE, vec![Char(' ')], Event::ToggleItem),
        (NONE, vec![Enter], Event::ToggleItemAndAdvance),
        (NONE, vec![Char('a')], Event::ToggleAll),
        (SHIFT, vec![Char('A')], Event::ToggleAllUniform),
        (NONE, vec![Up, Char('k')], Event::FocusPrev),
        (NONE, vec![Down, Char('j')], Event::FocusNext),
        (NONE, vec![PageUp], Event::FocusPrevSameKind),
        (NONE, vec![PageDown], Event::FocusNextSameKind),
        (SHIFT, vec![Left, Char('h')], outer(false)),
        (NONE, vec![Left, Char('h')], outer(true)),
        (NONE, vec![Right, Char('l')], Event::FocusInner),
        (SHIFT, vec![Right, Char('l')], Event::FocusInner),
        (CONTROL, vec![Char('u')], Event::FocusPrevPage),
        (CONTROL, vec![Char('d')], Event::FocusNextPage),
        (NONE, vec![Char('f')], Event::ExpandItem),
        (SHIFT, vec![Char('F')], Event::ExpandAll),
        (CONTROL, vec![Up, Char('y')], Event::ScrollUp),
        (CONTROL, vec![Down, Char('e')], Event::ScrollDown),
        (CONTROL, vec![PageUp, Char('b')], Event::PageUp),
        (CONTROL, vec![PageDown, Char('f')], Event::PageDown),
    ]
}

#[test]
fn a_key_of_the_table_has_its_event_and_no_other_key_has_one() {
    use KeyCode::{Delete, Down, Enter, Esc, Home, Left, PageDown, PageUp, Right, Tab, Up};
    let named = [
        Up, Down, Left, Right, PageUp, PageDown, Enter, Esc, Tab, Home, Delete,
    ];
    let codes = (' '..='~')
        .map(KeyCode::Char)
        .chain(named)
        .chain([KeyCode::Char('é')]);
    for code in codes {
        for bits in 0..8 {
            let modifiers = KeyModifiers::from_bits_truncate(bits);
            let row = table()
                .into_iter()
                .find(|row| row.0 == modifiers && row.1.contains(&code));
            let wanted = row.map_or(Event::None, |row| row.2);
            assert_eq!(
                event_of(code, modifiers, KeyEventKind::Press),
                wanted,
                "{code:?} {modifiers:?}"
            );
            for kind in [KeyEventKind::Repeat, KeyEventKind::Release] {
                assert_eq!(event_of(code, modifiers, kind), Event::None);
            }
        }
    }
}

#[test]
fn the_wheel_and_the_left_button_have_events() {
    let mouse = |kind, modifiers| {
        let (row, column) = (3, 500);
        Event::from(TerminalEvent::Mouse(MouseEvent {
            kind,
            column,
            row,
            modifiers,
        }))
    };
    for modifiers in [NONE, SHIFT, CONTROL | SHIFT] {
        let click = Event::Click {
            row: 3,
            column: 500,
        };
        assert_eq!(mouse(MouseEventKind::ScrollUp, modifiers), Event::ScrollUp);
        assert_eq!(
            mouse(MouseEventKind::ScrollDown, modifiers),
            Event::ScrollDown
        );
        assert_eq!(
            mouse(MouseEventKind::Down(MouseButton::Left), modifiers),
            click
        );
        for kind in [
            MouseEventKind::Down(MouseButton::Right),
            MouseEventKind::Up(MouseButton::Left),
            MouseEventKind::Drag(MouseButton::Left),
            MouseEventKind::Moved,
        ] {
            assert_eq!(mouse(kind, modifiers), Event::None);
        }
    }
    assert_eq!(Event::from(TerminalEvent::Resize(80, 24)), Event::None);
}
