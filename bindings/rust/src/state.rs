//! The state of a selection: its commits and files.
use crate::File;

/// The state of a selection: [`Recorder::new`](crate::Recorder::new) takes one, and [`Recorder::run`](crate::Recorder::run)
/// returns it with the marks and messages that the user accepted.
#[derive(Clone, Debug, Default, Eq, PartialEq)]
#[cfg_attr(feature = "serde", derive(serde::Deserialize, serde::Serialize))]
pub struct RecordState<'a> {
    /// Whether the user can only look: no key changes a mark.
    pub is_read_only: bool,

    /// The commits, at most two. The first one gets the selected changes, the second one the rest. A run adds commits without a
    /// message up to two.
    pub commits: Vec<Commit>,

    /// The files, in the order in which they are shown.
    pub files: Vec<File<'a>>,
}

/// A commit.
#[derive(Clone, Debug, Default, Eq, PartialEq)]
#[cfg_attr(feature = "serde", derive(serde::Deserialize, serde::Serialize))]
pub struct Commit {
    /// The message. If there is one, it is shown, and the user can edit it.
    pub message: Option<String>,
}
