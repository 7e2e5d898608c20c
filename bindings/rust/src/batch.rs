//! The events of one read.
use crate::recorder::failure;
use crate::screen::{Screen, Size};
use crate::session::{Error, Session, Stage};
use crate::{Event, RecordError, RecordInput};
use std::borrow::Cow;

/// The longest message that the library takes, in words.
const MESSAGE_TOO_LONG: &str = "commit message too long";

/// The word of an event that does nothing.
const NONE: &str = "none";

/// Handles `events`, which one read returned, in order, as one batch: each acts on the frame that was drawn before. If one of them
/// asks for a message, `input` edits it while `screen` is given back, and then the later ones are handled. Screenshots are taken up to
/// the event that ends the session or asks for a message.
pub(crate) fn press_batch(
    session: &mut Session,
    input: &mut dyn RecordInput,
    screen: &mut dyn Screen,
    events: &[Event],
) -> Result<(), RecordError> {
    let size = screen.size()?;
    let mut frame = frame_for(session, events)?;
    let mut handled = press(session, events)?;
    take_screenshots(&mut frame, size, &events[..handled]);
    while session.stage() == Stage::Editing {
        let later = edit_message(session, input, screen)?;
        // an event that a menu left for later may have asked: then no event of the batch is left
        let end = events.len().min(handled + later);
        take_screenshots(&mut frame, size, &events[handled..end]);
        handled = end;
    }
    Ok(())
}

/// Returns the frame that is drawn, if one of `events` keeps it.
fn frame_for(session: &Session, events: &[Event]) -> Result<String, RecordError> {
    if events.iter().any(is_screenshot) {
        session.text().map_err(failure)
    } else {
        Ok(String::new())
    }
}

fn is_screenshot(event: &Event) -> bool {
    matches!(event, Event::TakeScreenshot(_))
}

/// Returns whether `event` does something to the session.
fn acts(event: &Event) -> bool {
    *event != Event::None && !is_screenshot(event)
}

/// Returns the words of `events`, one for each. A screenshot does nothing to the session.
fn words_of(events: &[Event]) -> String {
    let words = events
        .iter()
        .map(|event| event.word().unwrap_or(Cow::Borrowed(NONE)));
    words.collect::<Vec<_>>().join(" ")
}

/// Hands `events` to the session as one batch, if one of them does something. Returns how many of them were handled: those up to the
/// one that ended the session or asked for a message, and else all.
fn press(session: &mut Session, events: &[Event]) -> Result<usize, RecordError> {
    let mut handled = events.len();
    if events.iter().any(acts) {
        handled = session
            .press_and_count(&words_of(events))
            .map_err(failure)?;
    }
    if events.contains(&Event::Redraw) {
        session.repaint().map_err(failure)?;
    }
    Ok(handled)
}

/// Takes the screenshots of `events`. They keep `frame`, which was drawn before the batch, or a blank one behind a `Redraw`.
fn take_screenshots(frame: &mut String, size: Size, events: &[Event]) {
    for event in events {
        match event {
            Event::TakeScreenshot(screenshot) => screenshot.set(frame),
            Event::Redraw => *frame = size.blank_frame(),
            _ => {}
        }
    }
}

/// Has `input` edit the message that the session waits for, while `screen` is given back. Returns how many of the later events of the
/// batch were handled. The terminal may show anything after that, so every row is drawn again.
fn edit_message(
    session: &mut Session,
    input: &mut dyn RecordInput,
    screen: &mut dyn Screen,
) -> Result<usize, RecordError> {
    let before = session.text().map_err(failure)?;
    screen.give_back()?;
    let edited = input.edit_commit_message(&before);
    screen.take_again()?;
    let message = edited?;
    let answered = session.answer_and_count(&message);
    let later = answered.map_err(|error| match error {
        Error::TooLong => RecordError::Other(MESSAGE_TOO_LONG.to_owned()),
        _ => failure(error),
    })?;
    session.repaint().map_err(failure)?;
    Ok(later)
}
