//! A change selector: a user marks changes on a screen, and the program gets both sides of each file.
//!
//! The names and their behaviour are those of the crate `scm-record` 0.10.1, so a tool that uses that crate can take this one
//! in its place, by one line of its `Cargo.toml`:
//!
//! ```toml
//! scm-record = { package = "gabrosty", path = "GABROSTY/bindings/rust", features = ["crossterm", "serde", "debug"] }
//! ```
//!
//! What a key does, what a screen shows and what is on each side of a file is decided by the library for C of the same
//! repository, whose contracts are proved. This crate hands a state in, passes events on, and reads the marks back.
//! `docs/DIFFERENCES.md` of the repository lists what differs from `scm-record`, and why.
//!
//! ```no_run
//! use scm_record::helpers::CrosstermInput;
//! use scm_record::{ChangeType, File, FileMode, RecordState, Recorder, Section, SectionChangedLine};
//! use std::borrow::Cow;
//! use std::path::Path;
//!
//! # fn main() -> Result<(), scm_record::RecordError> {
//! let new_line = SectionChangedLine {
//!     is_checked: false,
//!     change_type: ChangeType::Added,
//!     line: Cow::Borrowed("How is the engine?\n"),
//! };
//! let letter = File {
//!     old_path: None,
//!     path: Cow::Borrowed(Path::new("letter.txt")),
//!     file_mode: FileMode::FILE_DEFAULT,
//!     sections: vec![Section::Changed { lines: vec![new_line] }],
//! };
//! let state = RecordState { files: vec![letter], ..RecordState::default() };
//! let accepted = Recorder::new(state, &mut CrosstermInput).run()?;
//! let (selected, unselected) = accepted.files[0].get_selected_contents();
//! # Ok(())
//! # }
//! ```
//!
//! # Features
//!
//! - `crossterm`: [`helpers::CrosstermInput`] reads keys by crossterm, and an [`Event`] is made of crossterm's events. Without it
//!   the library's own decoder reads what the terminal sends.
//! - `serde`: states can be written and read, in the form that `scm-record` has.
//! - `debug`: [`Recorder::run`] writes its state to a file, if [`consts::ENV_VAR_DUMP_UI_STATE`] is set.
//! - `jj`: [`merges::Versions`] has `jj_sections`, the sections that jj's builtin merge editor makes of a merge.
#![warn(missing_docs, missing_debug_implementations, unsafe_op_in_unsafe_fn)]
#![warn(clippy::all, clippy::undocumented_unsafe_blocks)]
#![warn(clippy::must_use_candidate)]

mod batch;
mod error;
mod event;
#[cfg(feature = "crossterm")]
mod event_of_terminal;
mod ffi;
mod file;
mod input;
mod json;
mod limits;
mod modes;
mod recorder;
mod screen;
mod screenshot;
mod section;
mod state;
mod terminal;
mod transfer;
#[cfg(not(feature = "crossterm"))]
mod typed;

pub mod blanks;
pub mod consts;
pub mod helpers;
pub mod merges;
pub mod session;
pub mod trees;

pub use error::RecordError;
pub use event::Event;
pub use file::{File, FileMode, SelectedChanges, SelectedContents};
pub use input::{RecordInput, TerminalKind};
pub use recorder::Recorder;
pub use screenshot::TestingScreenshot;
pub use section::{ChangeType, Section, SectionChangedLine, Tristate};
pub use state::{Commit, RecordState};
