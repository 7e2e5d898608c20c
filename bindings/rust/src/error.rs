//! The errors with which a selection ends.
use std::error::Error;
use std::fmt;

/// What failed below a [`RecordError`].
pub(crate) type Cause = Box<dyn Error + Send + Sync>;

/// The reason why a selection ends without a state.
#[derive(Debug)]
pub enum RecordError {
    /// The user cancelled.
    Cancelled,

    /// The terminal could not be set up.
    SetUpTerminal(Box<dyn Error + Send + Sync>),

    /// The terminal could not be given back.
    CleanUpTerminal(Box<dyn Error + Send + Sync>),

    /// A frame could not be drawn.
    RenderFrame(Box<dyn Error + Send + Sync>),

    /// The input failed.
    ReadInput(Box<dyn Error + Send + Sync>),

    /// The state could not be written as JSON.
    #[cfg(feature = "serde")]
    SerializeJson(serde_json::Error),

    /// A file could not be written.
    WriteFile(Box<dyn Error + Send + Sync>),

    /// Any other failure: the state passes a limit, or memory is short. The text names it.
    Other(String),

    /// A bug of the selector.
    Bug(String),
}

impl fmt::Display for RecordError {
    fn fmt(&self, f: &mut fmt::Formatter<'_>) -> fmt::Result {
        match self {
            RecordError::Cancelled => f.write_str("cancelled by user"),
            RecordError::SetUpTerminal(cause) => write!(f, "failed to set up terminal: {cause}"),
            RecordError::CleanUpTerminal(cause) => {
                write!(f, "failed to clean up terminal: {cause}")
            }
            RecordError::RenderFrame(cause) => write!(f, "failed to render new frame: {cause}"),
            RecordError::ReadInput(cause) => write!(f, "failed to read user input: {cause}"),
            #[cfg(feature = "serde")]
            RecordError::SerializeJson(cause) => write!(f, "failed to serialize JSON: {cause}"),
            RecordError::WriteFile(cause) => write!(f, "failed to wrote file: {cause}"),
            RecordError::Other(text) => f.write_str(text),
            RecordError::Bug(text) => write!(f, "bug: {text}"),
        }
    }
}

impl Error for RecordError {
    fn source(&self) -> Option<&(dyn Error + 'static)> {
        match self {
            RecordError::SetUpTerminal(cause)
            | RecordError::CleanUpTerminal(cause)
            | RecordError::RenderFrame(cause)
            | RecordError::ReadInput(cause)
            | RecordError::WriteFile(cause) => Some(&**cause),
            #[cfg(feature = "serde")]
            RecordError::SerializeJson(cause) => Some(cause),
            RecordError::Cancelled | RecordError::Other(_) | RecordError::Bug(_) => None,
        }
    }
}
