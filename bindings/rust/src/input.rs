//! Where the events of a run come from.
use crate::{Event, RecordError};

/// What shows the screens of a run.
#[derive(Debug)]
pub enum TerminalKind {
    /// The terminal of the program, by its standard output.
    Crossterm,

    /// Nothing: the screens can be taken by [`TestingScreenshot`](crate::TestingScreenshot).
    Testing {
        /// The number of columns.
        width: usize,

        /// The number of rows.
        height: usize,
    },
}

/// The source of events.
pub trait RecordInput {
    /// Returns what shows the screens.
    fn terminal_kind(&self) -> TerminalKind;

    /// Returns the events that have come since the last call. If none has, waits for one.
    ///
    /// # Errors
    ///
    /// The error ends the run, which returns it.
    fn next_events(&mut self) -> Result<Vec<Event>, RecordError>;

    /// Returns what the user makes of `message`, the whole message of a commit. A run calls this only for commits that have a
    /// message.
    ///
    /// If the run has taken the program's terminal, it gives the terminal back before this call: raw mode, the second screen and
    /// clicks. An editor may have it. The run takes the terminal again behind the call, also behind an error.
    ///
    /// # Errors
    ///
    /// The error ends the run, which returns it.
    fn edit_commit_message(&mut self, message: &str) -> Result<String, RecordError>;
}
