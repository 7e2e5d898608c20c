//! The sections of a file, and their marks.
use crate::FileMode;
use std::borrow::Cow;

/// The mark of a section or a file, by those of its items.
#[derive(Clone, Debug, Eq, Hash, Ord, PartialEq, PartialOrd)]
pub enum Tristate {
    /// No item is checked, or there is none.
    False,

    /// Some items are checked.
    Partial,

    /// All items are checked.
    True,
}

impl From<bool> for Tristate {
    fn from(is_checked: bool) -> Self {
        if is_checked {
            Tristate::True
        } else {
            Tristate::False
        }
    }
}

/// How many marks there are, and how many of them are checked.
#[derive(Clone, Copy, Default)]
pub(crate) struct MarkCounts {
    checked: usize,
    all: usize,
}

impl MarkCounts {
    fn add(&mut self, is_checked: bool) {
        self.all += 1;
        self.checked += usize::from(is_checked);
    }

    /// Returns the sum of both counts.
    pub(crate) fn plus(self, other: MarkCounts) -> MarkCounts {
        MarkCounts {
            checked: self.checked + other.checked,
            all: self.all + other.all,
        }
    }

    /// Returns the mark of an item with these marks.
    pub(crate) fn tristate(self) -> Tristate {
        match self.checked {
            0 => Tristate::False,
            checked if checked == self.all => Tristate::True,
            _ => Tristate::Partial,
        }
    }
}

/// What a changed line is.
#[derive(Clone, Copy, Debug, Eq, Hash, Ord, PartialEq, PartialOrd)]
#[cfg_attr(feature = "serde", derive(serde::Deserialize, serde::Serialize))]
pub enum ChangeType {
    /// The line is added.
    Added,

    /// The line is removed.
    Removed,
}

/// A changed line.
#[derive(Clone, Debug, Eq, PartialEq)]
#[cfg_attr(feature = "serde", derive(serde::Deserialize, serde::Serialize))]
pub struct SectionChangedLine<'a> {
    /// Whether the line is checked.
    pub is_checked: bool,

    /// Whether the line is added or removed.
    pub change_type: ChangeType,

    /// The text of the line, with its line end, if it has one.
    pub line: Cow<'a, str>,
}

/// A section of a file.
#[derive(Clone, Debug, Eq, PartialEq)]
#[cfg_attr(feature = "serde", derive(serde::Deserialize, serde::Serialize))]
pub enum Section<'a> {
    /// Lines that do not change: context. Give all of them, also those far from a change. The sides of the file are made of
    /// them, and lines are numbered by them.
    Unchanged {
        /// The texts of the lines, each with its line end, if it has one.
        lines: Vec<Cow<'a, str>>,
    },

    /// Lines that change, of which the user checks some.
    Changed {
        /// The lines, in their order.
        lines: Vec<SectionChangedLine<'a>>,
    },

    /// A change of the file's mode.
    FileMode {
        /// Whether the change is checked.
        is_checked: bool,

        /// The mode after the change.
        mode: FileMode,
    },

    /// A change of binary contents.
    Binary {
        /// Whether the change is checked.
        is_checked: bool,

        /// What the user reads of the old contents, if there are any.
        old_description: Option<Cow<'a, str>>,

        /// What the user reads of the new contents, if there are any.
        new_description: Option<Cow<'a, str>>,
    },
}

impl Section<'_> {
    /// Returns whether the user can change marks of the section: whether it is not context.
    #[must_use]
    pub fn is_editable(&self) -> bool {
        !matches!(self, Section::Unchanged { .. })
    }

    /// Returns the mark of the section: `Tristate::False` if it has no items.
    #[must_use]
    pub fn tristate(&self) -> Tristate {
        self.mark_counts().tristate()
    }

    /// Checks every item of the section if `checked`, and else unchecks them.
    pub fn set_checked(&mut self, checked: bool) {
        self.change_marks(|mark| *mark = checked);
    }

    /// Inverts every mark of the section.
    pub fn toggle_all(&mut self) {
        self.change_marks(|mark| *mark = !*mark);
    }

    /// Returns how many items are checked, and how many there are.
    pub(crate) fn mark_counts(&self) -> MarkCounts {
        let mut counts = MarkCounts::default();
        match self {
            Section::Unchanged { .. } => {}
            Section::Changed { lines } => lines.iter().for_each(|line| counts.add(line.is_checked)),
            Section::FileMode { is_checked, .. } | Section::Binary { is_checked, .. } => {
                counts.add(*is_checked);
            }
        }
        counts
    }

    /// Passes each mark to `change`, in the order of the section.
    pub(crate) fn change_marks(&mut self, mut change: impl FnMut(&mut bool)) {
        match self {
            Section::Unchanged { .. } => {}
            Section::Changed { lines } => {
                lines
                    .iter_mut()
                    .for_each(|line| change(&mut line.is_checked));
            }
            Section::FileMode { is_checked, .. } | Section::Binary { is_checked, .. } => {
                change(is_checked);
            }
        }
    }
}
