//! A file of a state, its mode, and its two sides.
use crate::section::MarkCounts;
use crate::session::{Session, Side, SideContents};
use crate::{limits, modes, transfer, Section, Tristate};
use std::borrow::Cow;
use std::fmt;
use std::num::TryFromIntError;
use std::path::Path;

/// The mode of a file.
#[derive(Clone, Copy, Debug, Eq, Hash, PartialEq, PartialOrd, Ord)]
#[cfg_attr(feature = "serde", derive(serde::Deserialize, serde::Serialize))]
pub enum FileMode {
    /// The bits of Unix.
    Unix(usize),

    /// The file does not exist.
    Absent,
}

impl FileMode {
    /// The mode of a file that the owner can write and nobody executes: `100644`.
    pub const FILE_DEFAULT: FileMode = FileMode::Unix(0o100644);
}

/// Octal digits, or `<absent>`.
impl fmt::Display for FileMode {
    fn fmt(&self, f: &mut fmt::Formatter<'_>) -> fmt::Result {
        match self {
            FileMode::Unix(bits) => write!(f, "{bits:o}"),
            FileMode::Absent => f.write_str("<absent>"),
        }
    }
}

impl From<usize> for FileMode {
    fn from(bits: usize) -> Self {
        FileMode::Unix(bits)
    }
}

impl TryFrom<u32> for FileMode {
    type Error = TryFromIntError;

    fn try_from(bits: u32) -> Result<Self, Self::Error> {
        usize::try_from(bits).map(FileMode::Unix)
    }
}

impl TryFrom<i32> for FileMode {
    type Error = TryFromIntError;

    fn try_from(bits: i32) -> Result<Self, Self::Error> {
        usize::try_from(bits).map(FileMode::Unix)
    }
}

/// A file with changes.
#[derive(Clone, Debug, Eq, PartialEq)]
#[cfg_attr(feature = "serde", derive(serde::Deserialize, serde::Serialize))]
pub struct File<'a> {
    /// The path before a rename or a copy, if there was one. It is only shown.
    pub old_path: Option<Cow<'a, Path>>,

    /// The path. It is only shown.
    pub path: Cow<'a, Path>,

    /// The mode before the changes. A [`Section::FileMode`] changes it, and
    /// [`get_selected_contents`](File::get_selected_contents) returns what the user made of that.
    pub file_mode: FileMode,

    /// The sections, in the order of the file.
    pub sections: Vec<Section<'a>>,
}

/// One side of a file.
#[derive(Debug)]
pub struct SelectedChanges<'a> {
    /// The mode of the file on this side.
    pub file_mode: FileMode,

    /// The contents of the file on this side.
    pub contents: SelectedContents<'a>,
}

/// The contents of one side of a file.
#[derive(Clone, Debug, Hash, Eq, PartialEq, PartialOrd, Ord)]
pub enum SelectedContents<'a> {
    /// The contents do not change: there is nothing to write.
    Unchanged,

    /// The contents are binary, and the caller has them.
    Binary {
        /// The description of the old contents, as it is in the section.
        old_description: Option<Cow<'a, str>>,

        /// The description of the new contents, as it is in the section.
        new_description: Option<Cow<'a, str>>,
    },

    /// The contents are a text.
    Text {
        /// The text, which may be empty.
        contents: String,
    },
}

impl File<'_> {
    /// Returns the two sides of the file: with the checked changes alone, and with the unchecked changes alone. The first one
    /// is what to commit, the second one what remains.
    ///
    /// # Panics
    ///
    /// If a text of the file passes a limit of the library, with words that name the text; or if an allocation fails.
    #[must_use]
    pub fn get_selected_contents(&self) -> (SelectedChanges<'_>, SelectedChanges<'_>) {
        if let Err(error) = limits::check_file("the file", self) {
            panic!("{error}");
        }
        if !modes::has_greatest(self) {
            return self.sides(self);
        }
        let stand_in = modes::unused(self);
        let (mut selected, mut unselected) = self.sides(&modes::with_stand_in(self, stand_in));
        for side in [&mut selected, &mut unselected] {
            if side.file_mode == stand_in {
                side.file_mode = modes::GREATEST;
            }
        }
        (selected, unselected)
    }

    /// Returns the two sides of the file, by a session over `told`, which has the same contents.
    fn sides(&self, told: &File<'_>) -> (SelectedChanges<'_>, SelectedChanges<'_>) {
        let session = transfer::session_of_file(told);
        let session = session.unwrap_or_else(|error| panic!("a file is not split: {error}"));
        (
            self.side(&session, Side::Selected),
            self.side(&session, Side::Unselected),
        )
    }

    /// Returns `side` of the file, which is the only one of `session`.
    fn side(&self, session: &Session, side: Side) -> SelectedChanges<'_> {
        let told = session.side(0, side);
        let told = told.unwrap_or_else(|error| panic!("a file is not split: {error}"));
        SelectedChanges {
            file_mode: told.mode,
            contents: match told.contents {
                SideContents::Unchanged => SelectedContents::Unchanged,
                SideContents::Text(contents) => SelectedContents::Text { contents },
                SideContents::Binary => self.binary_contents(),
            },
        }
    }

    /// Returns the contents of the last binary section, which is the one that a side can have.
    fn binary_contents(&self) -> SelectedContents<'_> {
        let last = self
            .sections
            .iter()
            .rev()
            .find_map(|section| match section {
                Section::Binary {
                    old_description,
                    new_description,
                    ..
                } => Some(SelectedContents::Binary {
                    old_description: old_description.clone(),
                    new_description: new_description.clone(),
                }),
                _ => None,
            });
        last.unwrap_or(SelectedContents::Unchanged)
    }

    /// Returns the mark of the file: `Tristate::False` if it has no items.
    #[must_use]
    pub fn tristate(&self) -> Tristate {
        let counts = self.sections.iter().map(Section::mark_counts);
        counts
            .fold(MarkCounts::default(), MarkCounts::plus)
            .tristate()
    }

    /// Checks every item of the file if `checked`, and else unchecks them.
    pub fn set_checked(&mut self, checked: bool) {
        self.sections
            .iter_mut()
            .for_each(|section| section.set_checked(checked));
    }

    /// Inverts every mark of the file.
    pub fn toggle_all(&mut self) {
        self.sections.iter_mut().for_each(Section::toggle_all);
    }
}
