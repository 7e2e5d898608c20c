//! Copies of a screen, for tests.
use crate::Event;
use std::cell::RefCell;
use std::fmt;
use std::rc::Rc;

/// A copy of the screen at one time of a run. It begins without one. Its clones share the copy.
///
/// It is printed as the rows of the screen, each in quotes.
#[derive(Clone, Debug, Default, Eq, PartialEq)]
pub struct TestingScreenshot {
    contents: Rc<RefCell<Option<String>>>,
}

impl TestingScreenshot {
    /// Returns the event that takes the screenshot: it keeps the frame that was drawn last.
    #[must_use]
    pub fn event(&self) -> Event {
        Event::TakeScreenshot(self.clone())
    }

    /// Keeps `frame`.
    pub(crate) fn set(&self, frame: &str) {
        *self.contents.borrow_mut() = Some(frame.to_owned());
    }
}

impl fmt::Display for TestingScreenshot {
    fn fmt(&self, f: &mut fmt::Formatter<'_>) -> fmt::Result {
        match self.contents.borrow().as_deref() {
            Some(contents) => f.write_str(contents),
            None => f.write_str("<this screenshot was never assigned>"),
        }
    }
}
