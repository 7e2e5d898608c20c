//! A run of the selector.
use crate::screen::{Screen, TestingScreen};
use crate::session::{End, Error, Session, Stage};
use crate::terminal::Terminal;
use crate::{batch, limits, transfer};
use crate::{Commit, RecordError, RecordInput, RecordState, TerminalKind};
use std::{fmt, iter};

/// The selector over a state, with the input that drives it.
#[must_use = "a recorder shows nothing before it runs"]
pub struct Recorder<'state, 'input> {
    state: RecordState<'state>,
    input: &'input mut dyn RecordInput,
}

impl fmt::Debug for Recorder<'_, '_> {
    fn fmt(&self, f: &mut fmt::Formatter<'_>) -> fmt::Result {
        f.debug_struct("Recorder")
            .field("state", &self.state)
            .finish_non_exhaustive()
    }
}

impl<'state, 'input> Recorder<'state, 'input> {
    /// Returns a selector over `state`, with commits without a message added up to two.
    pub fn new(mut state: RecordState<'state>, input: &'input mut dyn RecordInput) -> Self {
        let missing = 2_usize.saturating_sub(state.commits.len());
        state
            .commits
            .extend(iter::repeat_with(Commit::default).take(missing));
        Self { state, input }
    }

    /// Runs the selector until the user accepts, and returns the state with the marks and messages that were accepted.
    ///
    /// Each turn draws a frame, and then handles the events that the input returns. If the input names the program's terminal,
    /// that is in raw mode meanwhile, and is given back on every way out, a panic too.
    ///
    /// # Errors
    ///
    /// - [`RecordError::Cancelled`]: the user cancelled.
    /// - [`RecordError::Other`]: the state, or a message that the input returned, passes a limit of the library; or an
    ///   allocation failed. A state is refused before anything is drawn.
    /// - What the input returns, or what the terminal fails with.
    pub fn run(self) -> Result<RecordState<'state>, RecordError> {
        #[cfg(feature = "debug")]
        write_state_if_asked(&self.state)?;
        limits::check_state(&self.state).map_err(RecordError::Other)?;
        let Recorder { mut state, input } = self;
        let session = match input.terminal_kind() {
            TerminalKind::Testing { width, height } => {
                let mut screen = TestingScreen::new(width, height);
                let session = transfer::begun_session(&state, screen.size()?).map_err(failure)?;
                drive(session, input, &mut screen)?
            }
            TerminalKind::Crossterm => {
                let size = Terminal::size_before()?;
                let session = transfer::begun_session(&state, size).map_err(failure)?;
                let mut terminal = Terminal::take()?;
                let driven = drive(session, input, &mut terminal);
                terminal.give_back()?;
                driven?
            }
        };
        read_end(&session, &mut state)?;
        Ok(state)
    }
}

/// Drives `session` on `screen` until it waits no more, and returns it.
fn drive(
    mut session: Session,
    input: &mut dyn RecordInput,
    screen: &mut dyn Screen,
) -> Result<Session, RecordError> {
    while session.stage() == Stage::Waiting {
        screen.show(&mut session)?;
        let events = input.next_events()?;
        batch::press_batch(&mut session, input, screen, &events)?;
    }
    Ok(session)
}

/// Writes the marks and messages that `session` ended with to `state`, or returns the error with which it ended.
fn read_end(session: &Session, state: &mut RecordState<'_>) -> Result<(), RecordError> {
    match session.end() {
        Some(End::Accepted) => transfer::read_back(session, state).map_err(failure),
        Some(End::Cancelled) => Err(RecordError::Cancelled),
        Some(End::NoMemory | End::Other) | None => {
            Err(RecordError::Other(session.text().map_err(failure)?))
        }
    }
}

/// Returns what a refused call means to the caller of a run.
pub(crate) fn failure(error: Error) -> RecordError {
    match error {
        Error::NoMemory => RecordError::Other("out of memory".to_owned()),
        Error::NotAccepted | Error::TooLong => {
            RecordError::Other(format!("state not accepted: {error}"))
        }
        _ => RecordError::Bug(error.to_string()),
    }
}

/// Writes `state` to a file, if the variable of the environment asks for it. A link of that name in the current folder, which may be a
/// stranger's, is replaced. The file is for its owner alone: it has the texts of the changed files.
#[cfg(feature = "debug")]
fn write_state_if_asked(state: &RecordState<'_>) -> Result<(), RecordError> {
    use crate::consts::{DUMP_UI_STATE_FILENAME, ENV_VAR_DUMP_UI_STATE};
    if std::env::var_os(ENV_VAR_DUMP_UI_STATE).is_none() {
        return Ok(());
    }
    let json = serde_json::to_string_pretty(state).map_err(RecordError::SerializeJson)?;
    let written = replace_file(DUMP_UI_STATE_FILENAME, &json);
    written.map_err(|error| RecordError::WriteFile(error.into()))
}

/// Has `text` be the file at `path`: writes a new file beside it, which then takes its place.
#[cfg(feature = "debug")]
fn replace_file(path: &str, text: &str) -> std::io::Result<()> {
    use std::io::Write as _;
    use std::os::unix::fs::OpenOptionsExt as _;
    let beside = format!("{path}.{}", std::process::id());
    let mut file = std::fs::OpenOptions::new()
        .write(true)
        .create_new(true)
        .mode(0o600)
        .open(&beside)?;
    let written = file
        .write_all(text.as_bytes())
        .and_then(|()| std::fs::rename(&beside, path));
    if written.is_err() {
        // the error counts, and the file is of no use
        let _ = std::fs::remove_file(&beside);
    }
    written
}
