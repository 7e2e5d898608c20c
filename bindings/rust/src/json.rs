//! The JSON form of a state, for the library.
use crate::{ChangeType, Commit, File, FileMode, RecordState, Section, SectionChangedLine};
use std::path::Path;

/// Returns whether `file` has an old path or a description that is there, and has no bytes.
pub(crate) fn has_empty_text(file: &File<'_>) -> bool {
    let has_empty_path = file.old_path.as_deref() == Some(Path::new(""));
    has_empty_path || file.sections.iter().any(has_empty_description)
}

fn has_empty_description(section: &Section<'_>) -> bool {
    match section {
        Section::Binary {
            old_description,
            new_description,
            ..
        } => [old_description, new_description]
            .map(|it| it.as_deref())
            .contains(&Some("")),
        Section::Unchanged { .. } | Section::Changed { .. } | Section::FileMode { .. } => false,
    }
}

/// Returns the JSON form of `state`. A path that is not UTF-8 is as it is shown.
pub(crate) fn json_of_state(state: &RecordState<'_>) -> String {
    format!(
        r#"{{"is_read_only":{},"commits":{},"files":{}}}"#,
        state.is_read_only,
        list(&state.commits, json_of_commit),
        list(&state.files, json_of_file)
    )
}

fn json_of_commit(commit: &Commit) -> String {
    format!(r#"{{"message":{}}}"#, optional(commit.message.as_deref()))
}

fn json_of_file(file: &File<'_>) -> String {
    let old_path = file.old_path.as_deref().map(Path::to_string_lossy);
    format!(
        r#"{{"old_path":{},"path":{},"file_mode":{},"sections":{}}}"#,
        optional(old_path.as_deref()),
        text(&file.path.to_string_lossy()),
        mode(file.file_mode),
        list(&file.sections, json_of_section)
    )
}

fn json_of_section(section: &Section<'_>) -> String {
    match section {
        Section::Unchanged { lines } => {
            format!(
                r#"{{"Unchanged":{{"lines":{}}}}}"#,
                list(lines, |line| text(line))
            )
        }
        Section::Changed { lines } => {
            format!(r#"{{"Changed":{{"lines":{}}}}}"#, list(lines, json_of_line))
        }
        Section::FileMode {
            is_checked,
            mode: new_mode,
        } => format!(
            r#"{{"FileMode":{{"is_checked":{is_checked},"mode":{}}}}}"#,
            mode(*new_mode)
        ),
        Section::Binary {
            is_checked,
            old_description,
            new_description,
        } => format!(
            r#"{{"Binary":{{"is_checked":{is_checked},"old_description":{},"new_description":{}}}}}"#,
            optional(old_description.as_deref()),
            optional(new_description.as_deref())
        ),
    }
}

fn json_of_line(line: &SectionChangedLine<'_>) -> String {
    let change_type = match line.change_type {
        ChangeType::Added => "Added",
        ChangeType::Removed => "Removed",
    };
    format!(
        r#"{{"is_checked":{},"change_type":"{change_type}","line":{}}}"#,
        line.is_checked,
        text(&line.line)
    )
}

fn mode(mode: FileMode) -> String {
    match mode {
        FileMode::Unix(bits) => format!(r#"{{"Unix":{bits}}}"#),
        FileMode::Absent => r#""Absent""#.to_owned(),
    }
}

fn list<T>(items: &[T], json_of: impl Fn(&T) -> String) -> String {
    let items: Vec<_> = items.iter().map(json_of).collect();
    format!("[{}]", items.join(","))
}

fn optional(words: Option<&str>) -> String {
    words.map_or_else(|| "null".to_owned(), text)
}

fn text(words: &str) -> String {
    let mut json = String::with_capacity(words.len() + 2);
    json.push('"');
    for it in words.chars() {
        match it {
            '"' | '\\' => json.extend(['\\', it]),
            '\0'..='\u{1f}' => json.push_str(&format!("\\u{:04x}", u32::from(it))),
            _ => json.push(it),
        }
    }
    json.push('"');
    json
}
