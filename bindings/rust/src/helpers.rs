//! Inputs, and the description of binary contents.
use crate::{Event, RecordError, RecordInput, TerminalKind};
use std::collections::VecDeque;
use std::fmt;

/// Returns a description of binary contents, by their hash and their number of bytes: `abc123 (42 bytes)`.
#[must_use]
pub fn make_binary_description(hash: &str, num_bytes: u64) -> String {
    format!("{hash} ({num_bytes} bytes)")
}

/// Reads the keys and clicks of the program's terminal. A message stays as it is: wrap this input to edit messages.
///
/// With the feature `crossterm` it reads by that crate, and without it by the decoder of the library.
#[derive(Debug)]
pub struct CrosstermInput;

impl RecordInput for CrosstermInput {
    fn terminal_kind(&self) -> TerminalKind {
        TerminalKind::Crossterm
    }

    #[cfg(feature = "crossterm")]
    fn next_events(&mut self) -> Result<Vec<Event>, RecordError> {
        let failed = |error: std::io::Error| RecordError::ReadInput(error.into());
        let mut events = vec![crossterm::event::read().map_err(failed)?.into()];
        // what has come by now is one batch: a wheel turns faster than a terminal draws
        while crossterm::event::poll(std::time::Duration::ZERO).map_err(failed)? {
            events.push(crossterm::event::read().map_err(failed)?.into());
        }
        Ok(events)
    }

    #[cfg(not(feature = "crossterm"))]
    fn next_events(&mut self) -> Result<Vec<Event>, RecordError> {
        crate::typed::read_events().map_err(|error| RecordError::ReadInput(error.into()))
    }

    fn edit_commit_message(&mut self, message: &str) -> Result<String, RecordError> {
        Ok(message.to_owned())
    }
}

/// Returns events of a list, one at each read, and messages of another list. Behind the last event it returns `Event::None`
/// for ever.
pub struct TestingInput {
    /// The number of columns of the screen.
    pub width: usize,

    /// The number of rows of the screen.
    pub height: usize,

    /// The events that are left.
    pub events: Box<dyn Iterator<Item = Event>>,

    /// The messages that are left. Each edit takes one.
    pub commit_messages: VecDeque<String>,
}

impl fmt::Debug for TestingInput {
    fn fmt(&self, f: &mut fmt::Formatter<'_>) -> fmt::Result {
        let mut fields = f.debug_struct("TestingInput");
        fields
            .field("width", &self.width)
            .field("height", &self.height);
        fields
            .field("commit_messages", &self.commit_messages)
            .finish_non_exhaustive()
    }
}

impl TestingInput {
    /// Returns an input of `events` for a screen of `width` columns and `height` rows, without messages.
    #[must_use]
    pub fn new(
        width: usize,
        height: usize,
        events: impl IntoIterator<Item = Event> + 'static,
    ) -> Self {
        Self {
            width,
            height,
            events: Box::new(events.into_iter()),
            commit_messages: VecDeque::new(),
        }
    }
}

impl RecordInput for TestingInput {
    fn terminal_kind(&self) -> TerminalKind {
        TerminalKind::Testing {
            width: self.width,
            height: self.height,
        }
    }

    fn next_events(&mut self) -> Result<Vec<Event>, RecordError> {
        Ok(vec![self.events.next().unwrap_or(Event::None)])
    }

    /// # Errors
    ///
    /// `RecordError::Other`: no message is left.
    fn edit_commit_message(&mut self, _message: &str) -> Result<String, RecordError> {
        let message = self.commit_messages.pop_front();
        message.ok_or_else(|| RecordError::Other("No more commit messages available".to_owned()))
    }
}
