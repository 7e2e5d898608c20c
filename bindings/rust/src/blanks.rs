//! A version of a file without the changes that are of blanks alone.
//!
//! ```
//! use scm_record::blanks::without_blank_changes;
//!
//! let found = without_blank_changes("if x:\n    y\n", "if x:\n\ty\nz\n")?;
//! assert_eq!((found.bytes.as_slice(), found.left_out), ("if x:\n    y\nz\n".as_bytes(), 1));
//! # Ok::<(), scm_record::session::Error>(())
//! ```
use crate::ffi;
use crate::session::{bytes_of, sized, Error};

/// A version of a file without the changes that are of blanks alone.
#[derive(Clone, Debug, Eq, PartialEq)]
pub struct WithoutBlankChanges {
    /// The bytes of the version.
    pub bytes: Vec<u8>,
    /// How many lines are not as the version had them.
    pub left_out: usize,
}

/// Returns the version `new` of a file without the changes from `old` that are of blanks alone. A line that differs from the line of
/// `old` that it is compared with by blanks alone is as `old` has it: by tabs, vertical tabs, form feeds, carriage returns or spaces.
///
/// # Errors
/// [`Error::NoMemory`]: an allocation failed.
pub fn without_blank_changes(
    old: impl AsRef<[u8]>,
    new: impl AsRef<[u8]>,
) -> Result<WithoutBlankChanges, Error> {
    let ((old, old_length), (new, new_length)) = (sized(&old), sized(&new));
    let mut left_out = 0;
    let bytes = bytes_of(old_length + new_length, |out, room, written| {
        // SAFETY: both versions lead to as many bytes, and `out` has room for `room` bytes.
        unsafe {
            ffi::gabro_without_blank_changes(
                old,
                old_length,
                new,
                new_length,
                out,
                room,
                written,
                &mut left_out,
            )
        }
    })?;
    Ok(WithoutBlankChanges { bytes, left_out })
}
