//! What shows the frames of a run.
use crate::session::{Session, MAX_COLUMNS, MAX_ROWS};
use crate::RecordError;

/// The size of a screen, of which the library draws at most 1,000 columns and 1,000 rows.
#[derive(Clone, Copy, Debug, Eq, PartialEq)]
pub struct Size {
    pub width: u16,
    pub height: u16,
}

impl Size {
    /// Returns a frame of this size that shows nothing.
    pub fn blank_frame(self) -> String {
        let (width, height) = (self.width.min(MAX_COLUMNS), self.height.min(MAX_ROWS));
        if width == 0 {
            return String::new();
        }
        format!("\"{}\"\n", " ".repeat(width.into())).repeat(height.into())
    }
}

/// What shows the frames of a run.
pub trait Screen {
    /// Returns its size.
    fn size(&mut self) -> Result<Size, RecordError>;

    /// Shows `session`, at the size that the screen has now.
    fn show(&mut self, session: &mut Session) -> Result<(), RecordError>;

    /// Gives back what the screen has taken, so that another program can have it.
    fn give_back(&mut self) -> Result<(), RecordError>;

    /// Takes it again.
    fn take_again(&mut self) -> Result<(), RecordError>;
}

/// A screen that nobody sees.
pub struct TestingScreen {
    size: Size,
}

impl TestingScreen {
    /// Returns a screen of `width` columns and `height` rows.
    pub fn new(width: usize, height: usize) -> TestingScreen {
        let nearest = |length| u16::try_from(length).unwrap_or(u16::MAX);
        let size = Size {
            width: nearest(width),
            height: nearest(height),
        };
        TestingScreen { size }
    }
}

impl Screen for TestingScreen {
    fn size(&mut self) -> Result<Size, RecordError> {
        Ok(self.size)
    }

    fn show(&mut self, _session: &mut Session) -> Result<(), RecordError> {
        Ok(())
    }

    fn give_back(&mut self) -> Result<(), RecordError> {
        Ok(())
    }

    fn take_again(&mut self) -> Result<(), RecordError> {
        Ok(())
    }
}
