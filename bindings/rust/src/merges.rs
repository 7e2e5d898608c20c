//! The merge of two changed versions of a file: which lines are taken without asking, which are in conflict, and what marks make of them.
//!
//! ```
//! use scm_record::merges::{Labels, MergeVersion, Versions, MARKER_LENGTH};
//!
//! let versions = Versions {
//!     base: b"a\nold\nz\n",
//!     ours: b"a\nours\nz\n",
//!     theirs: b"a\ntheirs\nz\nmore\n",
//! };
//! let lines = versions.lines()?;
//! let found: Vec<_> = lines.iter().map(|line| (line.version, line.text.as_str())).collect();
//! let wanted = [
//!     (MergeVersion::Agreed, "a\n"),
//!     (MergeVersion::Ours, "ours\n"),
//!     (MergeVersion::Base, "old\n"),
//!     (MergeVersion::Theirs, "theirs\n"),
//!     (MergeVersion::Agreed, "z\n"),
//!     (MergeVersion::Agreed, "more\n"),
//! ];
//! assert_eq!(found, wanted);
//! // nothing is taken: our line and theirs are not checked, and the removal of the base's line is
//! assert_eq!(versions.open_conflicts(&[false, true, false])?, 1);
//! assert_eq!(versions.merged_bytes(&[true, true, false])?, b"a\nours\nz\nmore\n");
//! let labels = Labels { ours: b"main", ..Labels::default() };
//! let open = b"a\n<<<<<<< main\nours\n|||||||\nold\n=======\ntheirs\n>>>>>>>\nz\nmore\n";
//! assert_eq!(versions.marked_bytes(&[false, true, false], &labels, MARKER_LENGTH)?, open);
//! # Ok::<(), scm_record::session::Error>(())
//! ```
use crate::ffi;
use crate::session::{bytes_of, done, sized, Error};
use crate::{ChangeType, Section, SectionChangedLine};
use std::borrow::Cow;

/// The version that a line of a merge comes from.
#[derive(Clone, Copy, Debug, Eq, Hash, PartialEq)]
pub enum MergeVersion {
    /// The line is taken without asking.
    Agreed,
    /// Ours, in a conflict.
    Ours,
    /// The base, in a conflict.
    Base,
    /// Theirs, in a conflict.
    Theirs,
}

/// A line of a merge. A version without lines has one with an empty text in each conflict.
#[derive(Clone, Debug, Eq, Hash, PartialEq)]
pub struct MergeLine {
    /// Where the line comes from.
    pub version: MergeVersion,
    /// The line, with its line end if it has one.
    pub text: String,
}

/// Two versions of a file that both came from a third one, which may be empty.
#[derive(Clone, Copy, Debug)]
pub struct Versions<'t> {
    /// The version that both came from.
    pub base: &'t [u8],
    /// Our version.
    pub ours: &'t [u8],
    /// Their version.
    pub theirs: &'t [u8],
}

/// What is behind the markers of a conflict, as the names of branches. A label that is empty, or that has a line end, is left out.
#[derive(Clone, Copy, Debug, Default)]
pub struct Labels<'t> {
    /// The label of the base.
    pub base: &'t [u8],
    /// The label of our version.
    pub ours: &'t [u8],
    /// The label of their version.
    pub theirs: &'t [u8],
}

/// How many signs the markers of git have.
pub const MARKER_LENGTH: usize = 7;

/// The bytes of a record before its text: a letter, and a number.
const HEAD: usize = 9;

impl Versions<'_> {
    /// Returns how many bytes the merge has at most, by any marks: each version has at most one line without a line end.
    fn most_bytes(&self) -> usize {
        self.base.len() + self.ours.len() + self.theirs.len() + 3
    }

    /// Returns the lines of the merge, in its order. Each conflict has all of ours, then all of the base, and then all of theirs.
    ///
    /// # Errors
    ///
    /// [`Error::NoMemory`]: an allocation failed.
    pub fn lines(&self) -> Result<Vec<MergeLine>, Error> {
        let ((base, base_length), (ours, our_length)) = (sized(&self.base), sized(&self.ours));
        let (theirs, their_length) = sized(&self.theirs);
        let records = bytes_of(2 * self.most_bytes(), |out, room, written| {
            // SAFETY: each version leads to as many bytes, and `out` has room for `room` bytes.
            unsafe {
                ffi::gabro_merge_texts(
                    base,
                    base_length,
                    ours,
                    our_length,
                    theirs,
                    their_length,
                    out,
                    room,
                    written,
                )
            }
        })?;
        Ok(lines_in(&records))
    }

    /// Returns the sections of a file that shows the merge, with nothing taken: context, and of each conflict one section with our lines, one
    /// with those of the base, and one with theirs. A user takes a version by the mark of its section, and the base by taking that away.
    /// [`marks_of`] has the marks for [`merged_bytes`](Versions::merged_bytes).
    ///
    /// # Errors
    ///
    /// Those of [`lines`](Versions::lines).
    pub fn sections(&self) -> Result<Vec<Section<'static>>, Error> {
        let mut sections = Vec::new();
        let mut last = None;
        for line in self.lines()? {
            let begins = last != Some(line.version);
            last = Some(line.version);
            let is_checked = line.version == MergeVersion::Base;
            push_line(&mut sections, line, begins, is_checked);
        }
        Ok(sections)
    }

    /// Returns the sections that the builtin merge editor of jj makes of the merge: each conflict is one section, which has our lines as added
    /// ones, those of the base as removed ones, and theirs as added ones, none of them checked. A version without lines has none there.
    ///
    /// As in jj, the selected side of the file is the merge: [`File::get_selected_contents`](crate::File::get_selected_contents) returns it, and
    /// it has the lines of the base if nothing is checked.
    ///
    /// # Errors
    ///
    /// [`Error::NotText`]: a version is not UTF-8. [`Error::NoMemory`]: an allocation failed.
    #[cfg(feature = "jj")]
    pub fn jj_sections(&self) -> Result<Vec<Section<'static>>, Error> {
        for version in [self.base, self.ours, self.theirs] {
            std::str::from_utf8(version).map_err(|_| Error::NotText)?;
        }
        let mut sections = Vec::new();
        for line in self
            .lines()?
            .into_iter()
            .filter(|line| !line.text.is_empty())
        {
            push_line(&mut sections, line, false, false);
        }
        Ok(sections)
    }

    /// Returns the merge by the marks of its items, which are the lines of the conflicts. Ours and theirs are taken if they are marked, and
    /// the lines of the base if they are not.
    ///
    /// # Errors
    ///
    /// [`Error::NoItem`]: there are more or fewer marks than items. [`Error::NoMemory`]: an allocation failed.
    pub fn merged_bytes(&self, marks: &[bool]) -> Result<Vec<u8>, Error> {
        let ((base, base_length), (ours, our_length)) = (sized(&self.base), sized(&self.ours));
        let (theirs, their_length) = sized(&self.theirs);
        let marks: Vec<u8> = marks.iter().copied().map(u8::from).collect();
        let (marks, count) = sized(&marks);
        bytes_of(self.most_bytes(), |out, room, written| {
            // SAFETY: each version and the marks lead to as many bytes, and `out` has room for `room` bytes.
            unsafe {
                ffi::gabro_merged_bytes(
                    base,
                    base_length,
                    ours,
                    our_length,
                    theirs,
                    their_length,
                    marks,
                    count,
                    out,
                    room,
                    written,
                )
            }
        })
    }

    /// Returns the merge as [`merged_bytes`](Versions::merged_bytes) does, but with git's markers around each conflict that is open, in the
    /// style `diff3`. A marker has `marker_length` signs, or one more than any line of the file begins with, whichever is greater.
    ///
    /// # Errors
    ///
    /// Those of [`merged_bytes`](Versions::merged_bytes).
    pub fn marked_bytes(
        &self,
        marks: &[bool],
        labels: &Labels<'_>,
        marker_length: usize,
    ) -> Result<Vec<u8>, Error> {
        let ((base, base_length), (ours, our_length)) = (sized(&self.base), sized(&self.ours));
        let (theirs, their_length) = sized(&self.theirs);
        let marks: Vec<u8> = marks.iter().copied().map(u8::from).collect();
        let (marks, count) = sized(&marks);
        let (base_label, base_label_length) = sized(&labels.base);
        let (our_label, our_label_length) = sized(&labels.ours);
        let (their_label, their_label_length) = sized(&labels.theirs);
        bytes_of(2 * self.most_bytes(), |out, room, written| {
            // SAFETY: each version, the marks and each label lead to as many bytes, and `out` has room for `room` bytes.
            unsafe {
                ffi::gabro_marked_bytes(
                    base,
                    base_length,
                    ours,
                    our_length,
                    theirs,
                    their_length,
                    marks,
                    count,
                    base_label,
                    base_label_length,
                    our_label,
                    our_label_length,
                    their_label,
                    their_label_length,
                    marker_length,
                    out,
                    room,
                    written,
                )
            }
        })
    }

    /// Returns how many conflicts have no item that is taken by the marks.
    ///
    /// # Errors
    ///
    /// Those of [`merged_bytes`](Versions::merged_bytes).
    pub fn open_conflicts(&self, marks: &[bool]) -> Result<usize, Error> {
        let ((base, base_length), (ours, our_length)) = (sized(&self.base), sized(&self.ours));
        let (theirs, their_length) = sized(&self.theirs);
        let marks: Vec<u8> = marks.iter().copied().map(u8::from).collect();
        let (marks, count) = sized(&marks);
        let mut open = 0;
        // SAFETY: each version and the marks lead to as many bytes.
        done(unsafe {
            ffi::gabro_open_conflicts(
                base,
                base_length,
                ours,
                our_length,
                theirs,
                their_length,
                marks,
                count,
                &mut open,
            )
        })?;
        Ok(open)
    }
}

/// Returns the marks of the changed lines of sections, in order, for [`Versions::merged_bytes`].
#[must_use]
pub fn marks_of(sections: &[Section<'_>]) -> Vec<bool> {
    let mut marks = Vec::new();
    for section in sections {
        if let Section::Changed { lines } = section {
            marks.extend(lines.iter().map(|line| line.is_checked));
        }
    }
    marks
}

/// Adds a line to the last section, or to a new one behind it: if `begins` is set, if there is none, or if that is context and the line is not,
/// or the reverse. Context always goes on.
fn push_line(
    sections: &mut Vec<Section<'static>>,
    line: MergeLine,
    begins: bool,
    is_checked: bool,
) {
    let change_type = match line.version {
        MergeVersion::Agreed => None,
        MergeVersion::Base => Some(ChangeType::Removed),
        MergeVersion::Ours | MergeVersion::Theirs => Some(ChangeType::Added),
    };
    let line = Cow::Owned(line.text);
    let Some(change_type) = change_type else {
        match sections.last_mut() {
            Some(Section::Unchanged { lines }) => lines.push(line),
            _ => sections.push(Section::Unchanged { lines: vec![line] }),
        }
        return;
    };
    let changed = SectionChangedLine {
        is_checked,
        change_type,
        line,
    };
    match sections.last_mut() {
        Some(Section::Changed { lines }) if !begins => lines.push(changed),
        _ => sections.push(Section::Changed {
            lines: vec![changed],
        }),
    }
}

/// Returns the lines that records have.
fn lines_in(records: &[u8]) -> Vec<MergeLine> {
    let mut lines = Vec::new();
    let mut rest = records;
    while rest.len() >= HEAD {
        let (head, behind) = rest.split_at(HEAD);
        let length = head[1..]
            .iter()
            .rev()
            .fold(0, |sum, byte| sum << 8 | usize::from(*byte));
        let (text, after) = behind.split_at(length);
        lines.push(MergeLine {
            version: version_of(head[0]),
            text: String::from_utf8(text.to_vec()).expect("the library writes UTF-8"),
        });
        rest = after;
    }
    lines
}

/// Returns the version of the letter of a record.
fn version_of(letter: u8) -> MergeVersion {
    match letter {
        b'o' => MergeVersion::Ours,
        b'b' => MergeVersion::Base,
        b't' => MergeVersion::Theirs,
        _ => MergeVersion::Agreed,
    }
}
