//! Hands a state to a session of the library, and reads the marks and messages back.
//!
//! A path is handed in as it is shown. The state itself keeps its paths, so one that is not UTF-8 comes back as it was. A state
//! is handed in by calls, or by its JSON form if it has what no call takes: an old path or a description without bytes, or the
//! greatest number as a mode.
use crate::screen::Size;
use crate::session::{Error, LineKind, SectionKind, Session};
use crate::{json, modes, File, RecordState, Section};

/// Returns a session over `state`, which has begun on a screen of size `size`.
pub(crate) fn begun_session(state: &RecordState<'_>, size: Size) -> Result<Session, Error> {
    if state.files.iter().any(needs_json) {
        return Session::of_json(&json::json_of_state(state), size.width, size.height);
    }
    let mut session = session_of_state(state)?;
    session.begin(size.width, size.height)?;
    Ok(session)
}

/// Returns whether no call takes all of `file`.
fn needs_json(file: &File<'_>) -> bool {
    json::has_empty_text(file) || modes::has_greatest(file)
}

/// Returns a session over `state`. It has not begun.
fn session_of_state(state: &RecordState<'_>) -> Result<Session, Error> {
    let mut session = Session::new(state.is_read_only)?;
    for commit in &state.commits {
        session.add_commit(commit.message.as_deref())?;
    }
    for file in &state.files {
        add_file(&mut session, file)?;
    }
    Ok(session)
}

/// Returns a session over the state with `file` alone. It has not begun.
pub(crate) fn session_of_file(file: &File<'_>) -> Result<Session, Error> {
    let mut session = Session::new(false)?;
    add_file(&mut session, file)?;
    Ok(session)
}

fn add_file(session: &mut Session, file: &File<'_>) -> Result<(), Error> {
    let old_path = file.old_path.as_ref().map(|path| path.to_string_lossy());
    session.add_file(
        &file.path.to_string_lossy(),
        old_path.as_deref(),
        file.file_mode,
    )?;
    file.sections
        .iter()
        .try_for_each(|section| add_section(session, section))
}

fn add_section(session: &mut Session, section: &Section<'_>) -> Result<(), Error> {
    match section {
        Section::Unchanged { lines } => {
            session.add_section(SectionKind::Context)?;
            lines
                .iter()
                .try_for_each(|line| session.add_line(LineKind::Context, line))
        }
        Section::Changed { lines } => {
            session.add_section(SectionKind::Changed)?;
            lines.iter().try_for_each(|line| {
                let kind = LineKind::Changed {
                    change_type: line.change_type,
                    is_checked: line.is_checked,
                };
                session.add_line(kind, &line.line)
            })
        }
        Section::FileMode { is_checked, mode } => session.add_mode(*mode, *is_checked),
        Section::Binary {
            is_checked,
            old_description,
            new_description,
        } => session.add_binary(
            old_description.as_deref(),
            new_description.as_deref(),
            *is_checked,
        ),
    }
}

/// Writes the marks and messages of `session` to `state`, of which it was made.
pub(crate) fn read_back(session: &Session, state: &mut RecordState<'_>) -> Result<(), Error> {
    for (index, file) in state.files.iter_mut().enumerate() {
        let mut marks = session.marks(index)?.into_iter();
        for section in &mut file.sections {
            section.change_marks(|mark| *mark = marks.next().unwrap_or(*mark));
        }
    }
    for (index, commit) in state.commits.iter_mut().enumerate() {
        if let Some(message) = &mut commit.message {
            *message = session.message(index)?;
        }
    }
    Ok(())
}
