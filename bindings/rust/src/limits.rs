//! The limits of a state, as the library has them. A state is tested before it is handed in, so that the error can name the
//! place.
use crate::{File, RecordState, Section};
use std::path::Path;

/// The most commits of a state.
const MAX_COMMITS: usize = 2;

/// The most files, sections and lines of a state, taken together.
const MAX_ITEMS: usize = 16_000_000;

/// The most bytes of a text: a message, a path, a description or a line.
const MAX_TEXT: usize = 1_000_000;

/// Returns an error that names the first limit that `state` passes.
pub(crate) fn check_state(state: &RecordState<'_>) -> Result<(), String> {
    if state.commits.len() > MAX_COMMITS {
        let count = state.commits.len();
        return Err(refused(&format!(
            "it has {count} commits, and two at most are shown"
        )));
    }
    if state.files.iter().map(item_count).sum::<usize>() > MAX_ITEMS {
        return Err(refused(
            "it has more than 16,000,000 files, sections and lines",
        ));
    }
    for (index, commit) in state.commits.iter().enumerate() {
        let message = commit.message.as_deref().unwrap_or_default();
        check_text(message, || format!("the message of commits[{index}]"))?;
    }
    for (index, file) in state.files.iter().enumerate() {
        check_file(&format!("files[{index}]"), file)?;
    }
    Ok(())
}

/// Returns an error that names the first text of `file` that passes a limit. `name` is what the error calls the file.
pub(crate) fn check_file(name: &str, file: &File<'_>) -> Result<(), String> {
    check_path(&file.path, || format!("{name}.path"))?;
    if let Some(old_path) = &file.old_path {
        check_path(old_path, || format!("{name}.old_path"))?;
    }
    for (index, section) in file.sections.iter().enumerate() {
        check_section(&|| format!("{name}.sections[{index}]"), section)?;
    }
    Ok(())
}

fn check_section(name: &dyn Fn() -> String, section: &Section<'_>) -> Result<(), String> {
    let line_name = |index: usize| format!("{}.lines[{index}]", name());
    match section {
        Section::Unchanged { lines } => {
            let mut lines = lines.iter().enumerate();
            lines.try_for_each(|(index, line)| check_text(line, || line_name(index)))
        }
        Section::Changed { lines } => {
            let mut lines = lines.iter().enumerate();
            lines.try_for_each(|(index, line)| check_text(&line.line, || line_name(index)))
        }
        Section::FileMode { .. } => Ok(()),
        Section::Binary {
            old_description,
            new_description,
            ..
        } => {
            let mut texts = [old_description, new_description].into_iter().flatten();
            texts.try_for_each(|text| check_text(text, || format!("a description of {}", name())))
        }
    }
}

fn check_path(path: &Path, name: impl Fn() -> String) -> Result<(), String> {
    check_text(&path.to_string_lossy(), name)
}

fn check_text(text: &str, name: impl Fn() -> String) -> Result<(), String> {
    if text.len() > MAX_TEXT {
        return Err(refused(&format!(
            "{} has more than 1,000,000 bytes",
            name()
        )));
    }
    Ok(())
}

/// Returns how many files, sections and lines `file` counts for.
fn item_count(file: &File<'_>) -> usize {
    let lines = file.sections.iter().map(|section| match section {
        Section::Unchanged { lines } => lines.len(),
        Section::Changed { lines } => lines.len(),
        Section::FileMode { .. } | Section::Binary { .. } => 0,
    });
    1 + file.sections.len() + lines.sum::<usize>()
}

fn refused(why: &str) -> String {
    format!("state not accepted: {why}")
}
