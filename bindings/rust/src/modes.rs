//! The greatest number as a mode: for a call of C it is the mode of no file.
use crate::ffi::NOTHING;
use crate::{File, FileMode, Section};
use std::iter;

/// The mode that no call of C takes.
pub(crate) const GREATEST: FileMode = FileMode::Unix(NOTHING);

/// Returns the modes of `file`: its own, and those of its sections.
fn modes_of<'a>(file: &'a File<'_>) -> impl Iterator<Item = FileMode> + 'a {
    let of_sections = file.sections.iter().filter_map(|section| match section {
        Section::FileMode { mode, .. } => Some(*mode),
        Section::Unchanged { .. } | Section::Changed { .. } | Section::Binary { .. } => None,
    });
    iter::once(file.file_mode).chain(of_sections)
}

/// Returns whether a mode of `file` is the greatest number.
pub(crate) fn has_greatest(file: &File<'_>) -> bool {
    modes_of(file).any(|mode| mode == GREATEST)
}

/// Returns a mode that `file` does not have.
pub(crate) fn unused(file: &File<'_>) -> FileMode {
    let is_used = |mode: &FileMode| modes_of(file).any(|used| used == *mode);
    let mut modes = (0..=NOTHING).map(FileMode::Unix);
    modes
        .find(|mode| !is_used(mode))
        .unwrap_or(FileMode::Absent)
}

/// Returns `file` with `stand_in` in the place of each mode that is the greatest number.
pub(crate) fn with_stand_in<'a>(file: &File<'a>, stand_in: FileMode) -> File<'a> {
    let replace = |mode: &mut FileMode| {
        if *mode == GREATEST {
            *mode = stand_in;
        }
    };
    let mut file = file.clone();
    replace(&mut file.file_mode);
    for section in &mut file.sections {
        if let Section::FileMode { mode, .. } = section {
            replace(mode);
        }
    }
    file
}
