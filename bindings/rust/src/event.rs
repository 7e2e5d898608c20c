//! What a user or a program asks of the selector.
use crate::TestingScreenshot;
use std::borrow::Cow;

/// An event. The library's document `docs/RULES.md` says what each does.
#[derive(Clone, Debug, Eq, PartialEq)]
pub enum Event {
    /// Does nothing.
    None,
    /// Accepts the marks.
    QuitAccept,
    /// Cancels; asks first if there is something to lose.
    QuitCancel,
    /// Cancels as `QuitCancel` does, and at once if that has asked.
    QuitInterrupt,
    /// Closes a dialog.
    QuitEscape,
    /// Keeps the frame that was drawn last.
    TakeScreenshot(TestingScreenshot),
    /// Draws every row again.
    Redraw,
    /// Scrolls to the selected item.
    EnsureSelectionInViewport,
    /// Scrolls up by a row.
    ScrollUp,
    /// Scrolls down by a row.
    ScrollDown,
    /// Scrolls up by a screen.
    PageUp,
    /// Scrolls down by a screen.
    PageDown,
    /// Selects the previous item.
    FocusPrev,
    /// Selects the previous item of the same kind: file, section or line.
    FocusPrevSameKind,
    /// Selects an item half a screen above.
    FocusPrevPage,
    /// Selects the next item.
    FocusNext,
    /// Selects the next item of the same kind.
    FocusNextSameKind,
    /// Selects an item half a screen below.
    FocusNextPage,
    /// Selects the first item inside the selected one.
    FocusInner,
    /// Selects the item around the selected one.
    FocusOuter {
        /// Whether an open section is folded instead, and stays selected.
        fold_section: bool,
    },
    /// Checks or unchecks the selected item.
    ToggleItem,
    /// Checks or unchecks the selected item, and selects the next one of its kind.
    ToggleItemAndAdvance,
    /// Inverts every mark.
    ToggleAll,
    /// Checks every item, or unchecks all if all are checked.
    ToggleAllUniform,
    /// Folds or unfolds the selected item.
    ExpandItem,
    /// Unfolds every item, or folds all if all are unfolded.
    ExpandAll,
    /// A click of the left button.
    Click {
        /// The row of the screen, counted from 0.
        row: usize,
        /// The column of the screen, counted from 0.
        column: usize,
    },
    /// Shows both commits side by side, or one again. No key does this.
    ToggleCommitViewMode,
    /// Has the input edit the message of the first commit.
    EditCommitMessage,
    /// Opens or closes the help.
    Help,
}

/// The events with their words in scripts, but for clicks and screenshots.
const WORDS: [(&str, Event); 29] = [
    ("none", Event::None),
    ("c", Event::QuitAccept),
    ("q", Event::QuitCancel),
    ("ctrl-c", Event::QuitInterrupt),
    ("esc", Event::QuitEscape),
    ("redraw", Event::Redraw),
    ("ensure", Event::EnsureSelectionInViewport),
    ("wheel-up", Event::ScrollUp),
    ("wheel-down", Event::ScrollDown),
    ("ctrl-b", Event::PageUp),
    ("ctrl-f", Event::PageDown),
    ("k", Event::FocusPrev),
    ("pageup", Event::FocusPrevSameKind),
    ("ctrl-u", Event::FocusPrevPage),
    ("j", Event::FocusNext),
    ("pagedown", Event::FocusNextSameKind),
    ("ctrl-d", Event::FocusNextPage),
    ("l", Event::FocusInner),
    ("h", Event::FocusOuter { fold_section: true }),
    (
        "shift-h",
        Event::FocusOuter {
            fold_section: false,
        },
    ),
    ("space", Event::ToggleItem),
    ("enter", Event::ToggleItemAndAdvance),
    ("a", Event::ToggleAll),
    ("shift-A", Event::ToggleAllUniform),
    ("f", Event::ExpandItem),
    ("shift-F", Event::ExpandAll),
    ("view", Event::ToggleCommitViewMode),
    ("e", Event::EditCommitMessage),
    ("?", Event::Help),
];

impl Event {
    /// Returns the word of the event in scripts, or `None` if it is a screenshot.
    pub(crate) fn word(&self) -> Option<Cow<'static, str>> {
        match self {
            Event::TakeScreenshot(_) => None,
            // no screen has so many rows and columns, so such a click is beside it too
            Event::Click { row, column } => {
                let nearest = |place: &usize| u16::try_from(*place).unwrap_or(u16::MAX);
                Some(format!("click:{}:{}", nearest(row), nearest(column)).into())
            }
            _ => WORDS
                .iter()
                .find(|(_, event)| event == self)
                .map(|(word, _)| (*word).into()),
        }
    }

    /// Returns the event of a word, or `None` if it has none. The word `none` is the event `None`.
    #[cfg_attr(feature = "crossterm", allow(dead_code))]
    pub(crate) fn of_word(word: &str) -> Option<Event> {
        if let Some(place) = word.strip_prefix("click:") {
            let (row, column) = place.split_once(':')?;
            let (row, column) = (row.parse().ok()?, column.parse().ok()?);
            return Some(Event::Click { row, column });
        }
        let found = WORDS.iter().find(|(name, _)| *name == word);
        found.map(|(_, event)| event.clone())
    }
}
