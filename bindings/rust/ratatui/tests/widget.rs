//! The widget within a screen of a host.
use gabrosty_ratatui::{place_within, Selector};
use ratatui::buffer::Buffer;
use ratatui::layout::Rect;
use ratatui::widgets::StatefulWidget;
use scm_record::session::{End, LineKind, Session};
use scm_record::{ChangeType, FileMode};

/// Returns a session on a screen of another size than it is shown at.
fn session() -> Session {
    let mut session = Session::new(false).unwrap();
    session
        .add_file("letter", None, FileMode::FILE_DEFAULT)
        .unwrap();
    session.add_lines(LineKind::Context, "same\n").unwrap();
    let added = LineKind::changed(ChangeType::Added);
    session.add_lines(added, "wide \u{4e2d}\u{6587}\n").unwrap();
    session.begin(80, 24).unwrap();
    session
}

/// Returns a screen of a host, whose places have a symbol of their own.
fn host(screen: Rect) -> Buffer {
    let mut buffer = Buffer::empty(screen);
    for row in screen.y..screen.bottom() {
        for column in screen.x..screen.right() {
            buffer.set_stringn(column, row, "#", 1, ratatui::style::Style::default());
        }
    }
    buffer
}

/// Returns the symbols of a row of `buffer`, from `from` on.
fn symbols(buffer: &Buffer, row: u16, from: u16, to: u16) -> Vec<&str> {
    let begin = usize::from(row) * usize::from(buffer.area.width);
    let places = begin + usize::from(from)..begin + usize::from(to);
    buffer.content[places]
        .iter()
        .map(|cell| cell.symbol())
        .collect()
}

#[test]
fn nothing_outside_of_the_area_changes() {
    let screen = Rect::new(0, 0, 40, 12);
    let before = host(screen);
    for area in [
        Rect::new(4, 2, 30, 6),
        Rect::new(0, 0, 40, 12),
        Rect::new(35, 10, 30, 6),
        Rect::new(5, 3, 0, 4),
        Rect::new(50, 20, 4, 4),
    ] {
        let mut session = session();
        session.press("f").unwrap();
        let mut shown = before.clone();
        Selector.render(area, &mut shown, &mut session);
        for (place, cell) in shown.content.iter().enumerate() {
            let (row, column) = (place / 40, place % 40);
            let is_outside = place_within(area, row as u16, column as u16).is_none();
            assert!(!is_outside || *cell == before.content[place]);
        }
    }
}

#[test]
fn the_area_shows_the_session() {
    let area = Rect::new(4, 2, 30, 7);
    let mut session = session();
    session.press("f").unwrap();
    let mut shown = host(Rect::new(0, 0, 40, 12));
    Selector.render(area, &mut shown, &mut session);
    let rows = session.cells().unwrap();
    assert_eq!(rows.len(), 7);
    for (row, cells) in (area.y..).zip(&rows) {
        assert_eq!(cells.len(), 30);
        for (column, cell) in (area.x..).zip(cells).filter(|it| it.1.columns > 0) {
            assert_eq!(symbols(&shown, row, column, column + 1), [&*cell.symbol]);
        }
    }
    let wide = symbols(&shown, 6, 4, 34).concat();
    assert!(wide.contains("wide \u{4e2d} \u{6587}"), "{wide}");
}

#[test]
fn clicks_are_moved_into_the_area() {
    let area = Rect::new(4, 2, 30, 6);
    assert_eq!(place_within(area, 2, 4), Some((0, 0)));
    assert_eq!(place_within(area, 7, 33), Some((5, 29)));
    for (row, column) in [(1, 4), (8, 4), (2, 3), (2, 34)] {
        assert_eq!(place_within(area, row, column), None);
    }
}

#[test]
fn a_session_that_has_ended_shows_nothing() {
    let mut session = session();
    session.press("q").unwrap();
    assert_eq!(session.end(), Some(End::Cancelled));
    let before = host(Rect::new(0, 0, 40, 12));
    let mut shown = before.clone();
    Selector.render(Rect::new(4, 2, 30, 6), &mut shown, &mut session);
    assert_eq!(shown, before);
}
