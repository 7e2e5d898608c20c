//! States as JSON, in the form that the library reads too.
mod common;

use common::*;
use scm_record::session::{Session, Stage};
use scm_record::{ChangeType, Commit, File, FileMode, RecordError, RecordState};
use std::borrow::Cow;
use std::error::Error;
use std::path::Path;

fn every_form() -> RecordState<'static> {
    let with_old_path = File {
        old_path: Some(Cow::Borrowed(Path::new("old"))),
        file_mode: FileMode::Absent,
        ..file(
            "new",
            vec![
                mode(true, FileMode::FILE_DEFAULT),
                binary(false, None, Some("x")),
            ],
        )
    };
    RecordState {
        is_read_only: true,
        commits: vec![
            Commit {
                message: Some("words".to_owned()),
            },
            Commit::default(),
        ],
        files: vec![mixed_file(), with_old_path],
    }
}

const JSON: &str = concat!(
    r#"{"is_read_only":true,"commits":[{"message":"words"},{"message":null}],"files":["#,
    r#"{"old_path":null,"path":"f","file_mode":{"Unix":33188},"sections":[{"Unchanged":{"lines":["a\n"]}},"#,
    r#"{"Changed":{"lines":[{"is_checked":false,"change_type":"Removed","line":"b\n"},"#,
    r#"{"is_checked":true,"change_type":"Added","line":"c\n"}]}}]},"#,
    r#"{"old_path":"old","path":"new","file_mode":"Absent","sections":["#,
    r#"{"FileMode":{"is_checked":true,"mode":{"Unix":33188}}},"#,
    r#"{"Binary":{"is_checked":false,"old_description":null,"new_description":"x"}}]}]}"#
);

#[test]
fn a_state_is_written_and_read() {
    assert_eq!(serde_json::to_string(&every_form()).unwrap(), JSON);
    assert_eq!(
        serde_json::from_str::<RecordState>(JSON).unwrap(),
        every_form()
    );
    let kind: ChangeType = serde_json::from_str(r#""Added""#).unwrap();
    assert_eq!(kind, ChangeType::Added);
}

#[test]
fn the_library_reads_this_form() {
    let session = Session::of_json(JSON, 40, 10).unwrap();
    assert_eq!(
        (session.stage(), session.file_count()),
        (Stage::Waiting, Ok(2))
    );
    assert_eq!(session.marks(0), Ok(vec![false, true]));
}

#[test]
fn an_error_of_serde_is_a_source() {
    let cause = serde_json::from_str::<RecordState>("{").unwrap_err();
    let text = cause.to_string();
    let error = RecordError::SerializeJson(cause);
    assert_eq!(
        error.to_string(),
        format!("failed to serialize JSON: {text}")
    );
    assert!(error.source().unwrap().is::<serde_json::Error>());
}
