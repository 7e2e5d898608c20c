//! Variables of the environment, for developers.

/// If this variable is set, and the crate has the feature `debug`, [`Recorder::run`](crate::Recorder::run) first writes its state
/// as JSON to [`DUMP_UI_STATE_FILENAME`], in the current folder.
pub const ENV_VAR_DUMP_UI_STATE: &str = "SCM_RECORD_DUMP_UI_STATE";

/// The name of the file that [`ENV_VAR_DUMP_UI_STATE`] asks for.
pub const DUMP_UI_STATE_FILENAME: &str = "scm_record_ui_state.json";

/// In `scm-record` this variable asks for a pane over the screen, with what the selector knows. In this crate it has no effect:
/// the screen is that of the library.
pub const ENV_VAR_DEBUG_UI: &str = "SCM_RECORD_DEBUG_UI";
