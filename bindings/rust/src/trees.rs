//! Which files of a choice are left out, which paths are refused, and which version a file gets: what a program asks that writes many
//! files.
//!
//! ```
//! use scm_record::trees::{decide_rows, path_fault, PathFault};
//!
//! // `a` becomes a folder with a file, and only that file is marked: it cannot be there beside `a`
//! let decided = decide_rows(b"o-o a\0-nn a/b\0")?;
//! assert_eq!(decided, b"o a\0- a/b\0x a/b\0y a\0");
//! assert_eq!(path_fault("src/.GIT/config"), Some(PathFault::OfGit));
//! # Ok::<(), scm_record::session::Error>(())
//! ```
use crate::ffi;
use crate::file::FileMode;
use crate::session::{bits, bytes_of, mode_of, sized, Error};

/// What is wrong with a name of a path.
#[derive(Clone, Copy, Debug, Eq, Hash, PartialEq)]
pub enum PathFault {
    /// It is empty: the path is empty, absolute, or has `//` or a `/` at its end.
    Empty,
    /// It is `.`.
    Dot,
    /// It is `..`.
    DotDot,
    /// A file system may take it for `.git`.
    OfGit,
    /// A file system may take it for `.jj`.
    OfJj,
    /// It has a NUL byte.
    WithNul,
}

/// The faults, by their numbers from 1 on.
const FAULTS: [PathFault; 6] = [
    PathFault::Empty,
    PathFault::Dot,
    PathFault::DotDot,
    PathFault::OfGit,
    PathFault::OfJj,
    PathFault::WithNul,
];

/// The kinds of contents of a side: a text, and those of an item.
const TEXT: u32 = 1;
const BINARY: u32 = 2;

/// Whose contents a file has, by its number.
const ORIGINS: [Origin; 3] = [Origin::Side, Origin::Old, Origin::New];

/// The first room for what is decided, in bytes.
const ROOM: usize = 1 << 12;

/// Returns the records of what becomes of the paths of `rows`, and which files are left out. `gabrosty.h` has the form of both, at
/// `gabro_decide_rows`.
///
/// # Errors
/// [`Error::NoMemory`]: an allocation failed.
pub fn decide_rows(rows: &[u8]) -> Result<Vec<u8>, Error> {
    let (start, length) = sized(rows);
    bytes_of(ROOM, |out, room, written| {
        // SAFETY: `start` leads to `length` bytes, and `out` has room for `room` bytes.
        unsafe { ffi::gabro_decide_rows(start, length, out, room, written) }
    })
}

/// Returns what is wrong with the first name of `path` with which something is, or `None` if it names a file below the top folder
/// on each file system.
#[must_use]
pub fn path_fault(path: impl AsRef<[u8]>) -> Option<PathFault> {
    let (start, length) = sized(&path);
    // SAFETY: `start` leads to `length` bytes.
    let number = unsafe { ffi::gabro_path_fault(start, length) };
    number.checked_sub(1).map(|index| FAULTS[index as usize])
}

/// How the contents of a changed file are shown.
#[derive(Clone, Copy, Debug, Eq, PartialEq)]
pub enum ShownBy {
    /// By lines. A link beside a file that is shown so counts as no file.
    Lines,
    /// By items: the mode, and the contents, unless they come and go with the mode.
    Items,
    /// By one item, if a new version comes whose contents come with its mode, and else as by `Items`.
    OneItem,
}

/// A changed file: the modes of its two versions, and how it is shown.
#[derive(Clone, Copy, Debug, Eq, PartialEq)]
pub struct Changed {
    /// The mode of the old version.
    pub old_mode: FileMode,
    /// The mode of the new version.
    pub new_mode: FileMode,
    /// How the contents are shown.
    pub shown_by: ShownBy,
    /// Whether the old version has another path. Then both versions exist.
    pub is_renamed: bool,
}

/// What a state is to be given of a changed file.
#[derive(Clone, Copy, Debug, Eq, PartialEq)]
pub struct Shown {
    /// The mode before the changes.
    pub old_mode: FileMode,
    /// The mode after all of them.
    pub new_mode: FileMode,
    /// Whether they differ. Then the mode is an item.
    pub has_mode: bool,
    /// Whether the contents are an item.
    pub has_contents: bool,
}

/// A side of a changed file, as its state has it.
#[derive(Clone, Copy, Debug, Eq, PartialEq)]
pub struct Side {
    /// Whether it is the selected side.
    pub is_selected: bool,
    /// Its mode.
    pub mode: FileMode,
    /// Whether its contents are those of an item, and no text.
    pub is_binary: bool,
    /// Whether it has no bytes.
    pub is_empty: bool,
}

/// Whose contents a file has in a tree.
#[derive(Clone, Copy, Debug, Eq, PartialEq)]
pub enum Origin {
    /// Those of the side.
    Side,
    /// Those of the old version.
    Old,
    /// Those of the new version.
    New,
}

/// What a tree has of a changed file.
#[derive(Clone, Copy, Debug, Eq, PartialEq)]
pub struct InTree {
    /// The mode at the file's path.
    pub mode: FileMode,
    /// The mode at the path before a rename.
    pub old_path_mode: FileMode,
    /// Whose contents the file has.
    pub contents: Origin,
}

impl Changed {
    /// The form that C has.
    fn in_c(self) -> ffi::Changed {
        ffi::Changed {
            old_mode: bits(self.old_mode),
            new_mode: bits(self.new_mode),
            shown: self.shown_by as u32,
            is_renamed: self.is_renamed,
        }
    }

    /// Returns what a state is to be given of the file. `is_other` says whether the contents of its versions differ. The mode before
    /// the changes of a renamed file has no kind, so its new path is an item.
    #[must_use]
    pub fn shown(self, is_other: bool) -> Shown {
        let mut shown = ffi::Shown::default();
        // SAFETY: both pointers lead to values of this function.
        unsafe { ffi::gabro_tree_shown(&self.in_c(), is_other, &mut shown) };
        Shown {
            old_mode: mode_of(shown.old_mode),
            new_mode: mode_of(shown.new_mode),
            has_mode: shown.has_mode,
            has_contents: shown.has_contents,
        }
    }

    /// Returns what a tree has of the file by a side of it. With nothing marked the selected side is the old version and the other one the
    /// new version, and with everything marked the reverse.
    #[must_use]
    pub fn in_tree(self, side: Side) -> InTree {
        let told = ffi::SideInfo {
            contents: if side.is_binary { BINARY } else { TEXT },
            mode: bits(side.mode),
            length: usize::from(!side.is_empty),
        };
        let mut found = ffi::InTree::default();
        // SAFETY: all pointers lead to values of this function.
        unsafe { ffi::gabro_tree_side(&self.in_c(), side.is_selected, &told, &mut found) };
        InTree {
            mode: mode_of(found.mode),
            old_path_mode: mode_of(found.old_path_mode),
            contents: ORIGINS[found.contents as usize],
        }
    }
}
