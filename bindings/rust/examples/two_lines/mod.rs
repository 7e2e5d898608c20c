//! The state that some examples show.
use scm_record::{ChangeType, Commit, File, FileMode, RecordState, Section, SectionChangedLine};
use std::borrow::Cow;
use std::path::Path;

/// Returns a state of two added lines in a file, and a commit with a message.
pub fn state() -> RecordState<'static> {
    let line = |line| SectionChangedLine {
        is_checked: false,
        change_type: ChangeType::Added,
        line: Cow::Borrowed(line),
    };
    let lines = vec![line("one\n"), line("two\n")];
    let file = File {
        old_path: None,
        path: Cow::Borrowed(Path::new("text")),
        file_mode: FileMode::FILE_DEFAULT,
        sections: vec![Section::Changed { lines }],
    };
    let message = Some("message".to_owned());
    RecordState {
        is_read_only: false,
        commits: vec![Commit { message }],
        files: vec![file],
    }
}
