//! A session that a program drives itself, over the library for C: not in `scm-record`.
//!
//! A [`Session`] is first over an empty state. Additions make the state, [`begin`](Session::begin) begins the session, and
//! [`side`](Session::side) returns a side of a file. It is closed when it is dropped. The header `gabrosty.h` says what each call does.
//!
//! ```
//! use scm_record::session::{LineKind, Session, Side, SideContents, Stage};
//! use scm_record::{ChangeType, FileMode};
//!
//! # fn main() -> Result<(), scm_record::session::Error> {
//! let mut session = Session::new(false)?;
//! session.add_file("letter", None, FileMode::FILE_DEFAULT)?;
//! session.add_lines(LineKind::Context, "Dear all,\n")?;
//! session.add_lines(LineKind::changed(ChangeType::Added), "new\n")?;
//! session.begin(80, 24)?;
//! session.press("a")?;
//! session.press("c")?;
//! assert_eq!(session.stage(), Stage::Accepted);
//! let side = session.side(0, Side::Selected)?;
//! assert_eq!(side.contents, SideContents::Text("Dear all,\nnew\n".to_owned()));
//! # Ok(())
//! # }
//! ```
use crate::ffi::{self, Handle, NOTHING};
use crate::{ChangeType, Event, FileMode, Tristate};
use std::cell::UnsafeCell;
use std::fmt;
use std::os::raw::c_char;

mod at_terminal;
mod pager;
mod screen;

pub use crate::ffi::{MAX_COLUMNS, MAX_ROWS};
pub use pager::Pager;
pub use screen::{Cell, CellStyle, Colour};

/// A call that was not done. The session is as it was.
#[derive(Clone, Copy, Debug, Eq, Hash, PartialEq)]
pub enum Error {
    /// The session is closed.
    Closed,
    /// The session does not wait for this call now, or has no state to ask.
    NotNow,
    /// The text is not the word of an event.
    NoWord,
    /// The bytes are not UTF-8.
    NotText,
    /// The text is not the JSON form of a state.
    BadState,
    /// The state passes a limit.
    NotAccepted,
    /// A text or a line has more than 1,000,000 bytes.
    TooLong,
    /// An allocation failed.
    NoMemory,
    /// The state has no such file, section, line or commit.
    NoItem,
    /// The number stands for nothing that the call takes.
    NoNumber,
    /// A part of the text is no key with what it does.
    NoKey,
}

/// The errors, by their codes from 1 on.
const ERRORS: [Error; 11] = [
    Error::Closed,
    Error::NotNow,
    Error::NoWord,
    Error::NotText,
    Error::BadState,
    Error::NotAccepted,
    Error::TooLong,
    Error::NoMemory,
    Error::NoItem,
    Error::NoNumber,
    Error::NoKey,
];

impl fmt::Display for Error {
    fn fmt(&self, f: &mut fmt::Formatter<'_>) -> fmt::Result {
        let code = ERRORS.iter().zip(1..).find(|(error, _)| *error == self);
        let code = code.map_or(0, |(_, code)| code);
        let mut words = [0; 256];
        // SAFETY: `words` has room for as many bytes as its length says.
        let length = unsafe { ffi::gabro_words(code, words.as_mut_ptr().cast(), words.len()) };
        f.write_str(&String::from_utf8_lossy(&words[..length.min(words.len())]))
    }
}

impl std::error::Error for Error {}

/// A dialog that lies over the screen.
#[derive(Clone, Copy, Debug, Eq, Hash, PartialEq)]
pub enum Dialog {
    /// The question whether to quit.
    Question,
    /// The help. The question may be open below it.
    Help,
}

/// What a session waits for.
#[derive(Clone, Copy, Debug, Eq, Hash, PartialEq)]
pub enum Stage {
    /// An event.
    Waiting,
    /// The message of a commit: [`Session::text`] returns the one before, [`Session::answer`] takes the new one.
    Editing,
    /// Nothing, since the changes are accepted.
    Accepted,
    /// Nothing, since the user cancelled or an error ended the session: [`Session::end`] says which.
    Ended,
    /// Nothing, since the session is closed.
    Closed,
    /// Additions to its state, and [`Session::begin`].
    Building,
}

/// The colours in which a layer is painted.
#[derive(Clone, Copy, Debug, Eq, Hash, PartialEq)]
pub enum Theme {
    /// For a dark background: light colours.
    Dark,
    /// For a light background.
    Light,
    /// Sixteen colours: each colour is the bright one.
    Sixteen,
    /// None: bold, underlined and reversed alone.
    NoColours,
}

/// What a layer unfolds at the start.
#[derive(Clone, Copy, Debug, Eq, Hash, PartialEq)]
pub enum Folds {
    /// What is unfolded already.
    AsTheyAre,
    /// Nothing.
    Folded,
    /// Everything.
    Open,
    /// Everything, if the screen then shows all of it; or else what is unfolded already.
    OpenIfItFits,
}

/// How a session ended.
#[derive(Clone, Copy, Debug, Eq, Hash, PartialEq)]
pub enum End {
    /// The changes are accepted.
    Accepted,
    /// The user cancelled.
    Cancelled,
    /// An allocation failed.
    NoMemory,
    /// Any other failure.
    Other,
}

/// What a line is that is added to a state.
#[derive(Clone, Copy, Debug, Eq, Hash, PartialEq)]
pub enum LineKind {
    /// A line of context.
    Context,
    /// A changed line.
    Changed {
        /// Whether it is added or removed.
        change_type: ChangeType,
        /// Whether it is checked.
        is_checked: bool,
    },
}

impl LineKind {
    /// Returns the kind of an unchecked line that is added or removed.
    #[must_use]
    pub fn changed(change_type: ChangeType) -> LineKind {
        let is_checked = false;
        LineKind::Changed {
            change_type,
            is_checked,
        }
    }
}

/// The kind of a section of lines.
#[derive(Clone, Copy, Debug, Eq, Hash, PartialEq)]
pub enum SectionKind {
    /// Lines of context.
    Context,
    /// Changed lines.
    Changed,
}

/// One version of a file: its mode and its bytes.
#[derive(Clone, Copy, Debug, Eq, Hash, PartialEq)]
pub struct Version<'a> {
    /// The mode. That of a file that does not exist is [`FileMode::Absent`], and then its bytes do not matter.
    pub mode: FileMode,
    /// The bytes, of which those that are not UTF-8 are shown as symbols, and come back as they were.
    pub bytes: &'a [u8],
}

/// A side of a file.
#[derive(Clone, Copy, Debug, Eq, Hash, PartialEq)]
pub enum Side {
    /// The file with the checked changes alone.
    Selected,
    /// The file with the unchecked changes alone.
    Unselected,
}

/// What is on a side of a file.
#[derive(Clone, Debug, Eq, Hash, PartialEq)]
pub struct FileSide {
    /// The mode of the file.
    pub mode: FileMode,
    /// The contents of the file.
    pub contents: SideContents,
}

/// The contents of a side of a file.
#[derive(Clone, Debug, Eq, Hash, PartialEq)]
pub enum SideContents {
    /// The contents do not change.
    Unchanged,
    /// The contents are a text.
    Text(String),
    /// The contents are binary, and the caller has them.
    Binary,
}

/// Names an item: indexes, counted from 0, of a commit, of a file in the state, of a section in its file, and of a line in its
/// section. `None` names nothing: the key of a file has no section and no line.
#[derive(Clone, Copy, Debug, Default, Eq, Hash, PartialEq)]
pub struct Key {
    /// The commit.
    pub commit: Option<usize>,
    /// The file.
    pub file: Option<usize>,
    /// The section.
    pub section: Option<usize>,
    /// The line.
    pub line: Option<usize>,
}

impl From<ffi::Key> for Key {
    fn from(key: ffi::Key) -> Key {
        let index = |index| (index != NOTHING).then_some(index);
        Key {
            commit: index(key.commit),
            file: index(key.file),
            section: index(key.section),
            line: index(key.line),
        }
    }
}

impl From<Key> for ffi::Key {
    fn from(key: Key) -> ffi::Key {
        ffi::Key {
            commit: key.commit.unwrap_or(NOTHING),
            file: key.file.unwrap_or(NOTHING),
            section: key.section.unwrap_or(NOTHING),
            line: key.line.unwrap_or(NOTHING),
        }
    }
}

/// The component that a click acts on.
#[derive(Clone, Copy, Debug, Eq, Hash, PartialEq)]
pub enum Owner {
    /// None.
    Nobody,
    /// The menu bar, or the title of a menu.
    Menu,
    /// An item of the open menu.
    MenuItem,
    /// The button of a commit's message, or of a dialog.
    Button,
    /// The header of a file.
    File,
    /// The header of a section of changed lines.
    Section,
    /// The checkbox of a file, a section or a line.
    Mark,
    /// The box that folds a file or a section.
    Fold,
    /// A dialog, outside its buttons.
    Dialog,
    /// An added line.
    Added,
    /// A removed line.
    Removed,
    /// A section of context lines.
    Context,
    /// A section that changes the mode of a file.
    Mode,
    /// A section that changes the bytes of a file.
    Binary,
    /// The columns of a file that are left of its sections.
    FileEdge,
}

/// The owners, by their codes.
const OWNERS: [Owner; 15] = [
    Owner::Nobody,
    Owner::Menu,
    Owner::MenuItem,
    Owner::Button,
    Owner::File,
    Owner::Section,
    Owner::Mark,
    Owner::Fold,
    Owner::Dialog,
    Owner::Added,
    Owner::Removed,
    Owner::Context,
    Owner::Mode,
    Owner::Binary,
    Owner::FileEdge,
];

/// Where an item is: its file, and its first line in both versions of that file.
#[derive(Clone, Copy, Debug, Default, Eq, Hash, PartialEq)]
pub struct LinePlace {
    /// The file in the state, counted from 0.
    pub file: usize,
    /// The number of the line in the old version, counted from 1. A line that the version has not is where its next line is.
    pub old_line: usize,
    /// The number of the line in the new version, counted from 1. A line that the version has not is where its next line is.
    pub new_line: usize,
}

/// What an item is: its kind, and how many parts it has.
#[derive(Clone, Copy, Debug, Eq, Hash, PartialEq)]
pub struct Item {
    /// The kind: `File`; of a section `Section` (of changed lines), `Context`, `Mode` or `Binary`; of a line `Added`, `Removed` or
    /// `Context`.
    pub kind: Owner,
    /// How many parts it has: of a file its sections, of a section its lines, of a line none.
    pub parts: usize,
}

/// Returns the version of the library: 10,000 times its major number, 100 times its minor number, and its patch number.
#[must_use]
pub fn version() -> u32 {
    // SAFETY: the call takes nothing.
    unsafe { ffi::gabro_version() }
}

/// Returns the error with the code `code`, if that is one.
pub(crate) fn done(code: u32) -> Result<(), Error> {
    match code.checked_sub(1) {
        None => Ok(()),
        Some(index) => Err(ERRORS[index as usize]),
    }
}

/// Returns a pointer to the bytes of `text`, or to a byte if it has none; and how many they are.
pub(crate) fn sized(text: &(impl AsRef<[u8]> + ?Sized)) -> (*const c_char, usize) {
    static BYTE: u8 = 0;
    let bytes = text.as_ref();
    let start = if bytes.is_empty() {
        &BYTE
    } else {
        bytes.as_ptr()
    };
    (start.cast(), bytes.len())
}

/// Returns the mode as C has it.
pub(crate) fn bits(mode: FileMode) -> usize {
    match mode {
        FileMode::Unix(bits) => bits,
        FileMode::Absent => NOTHING,
    }
}

/// Returns the mode that C has as `bits`.
pub(crate) fn mode_of(bits: usize) -> FileMode {
    if bits == NOTHING {
        FileMode::Absent
    } else {
        FileMode::Unix(bits)
    }
}

/// The first room for a symbol, in bytes.
const SYMBOL_ROOM: usize = 1 << 6;

/// The first room for a text, in bytes.
const TEXT_ROOM: usize = 1 << 14;

/// The first room for a paint, in bytes: a paint that has no room is followed by one of every row.
const PAINT_ROOM: usize = 1 << 18;

/// Returns the bytes that `call` writes to the room that it gets, of the length that it gets: of `room` bytes at first. It returns
/// its code, and writes how many bytes there are. If that is more than the room, `call` is made again.
pub(crate) fn bytes_of(
    room: usize,
    mut call: impl FnMut(*mut c_char, usize, &mut usize) -> u32,
) -> Result<Vec<u8>, Error> {
    let mut bytes = vec![0; room];
    let mut length = 0;
    loop {
        done(call(bytes.as_mut_ptr().cast(), bytes.len(), &mut length))?;
        let is_whole = length <= bytes.len();
        bytes.resize(length, 0);
        if is_whole {
            return Ok(bytes);
        }
    }
}

/// Returns the text that `call` writes, as [`bytes_of`] calls it.
fn text_of(call: impl FnMut(*mut c_char, usize, &mut usize) -> u32) -> Result<String, Error> {
    bytes_of(TEXT_ROOM, call).map(text)
}

fn text(bytes: Vec<u8>) -> String {
    String::from_utf8(bytes).expect("the library writes UTF-8")
}

/// Returns the events of words that the library wrote.
fn events_of(words: &str) -> Vec<Event> {
    words
        .split_ascii_whitespace()
        .filter_map(Event::of_word)
        .collect()
}

/// A session. One thread at a time uses it, and it can move to another one.
#[derive(Debug)]
pub struct Session {
    // calls that only ask take a pointer to what may change, too
    handle: UnsafeCell<Handle>,
}

// SAFETY: the library has no state of its own, and a session none of its thread's.
unsafe impl Send for Session {}

impl Drop for Session {
    fn drop(&mut self) {
        // SAFETY: the handle is this session's alone.
        unsafe { ffi::gabro_free(self.at()) }
    }
}

// SAFETY of each call of this block: `at` points to the handle, which is all zeros at first, which only the library writes, and
// which one thread at a time uses, since a session is not `Sync`. A pointer that `sized` returns is one to at least a byte and to
// `length` bytes. What a call writes to is of this call alone.
#[allow(clippy::undocumented_unsafe_blocks)]
impl Session {
    /// Returns the pointer to the handle.
    fn at(&self) -> *mut Handle {
        self.handle.get()
    }

    /// Returns a closed session.
    fn closed() -> Session {
        let handle = UnsafeCell::new(Handle::CLOSED);
        Session { handle }
    }

    /// Returns a session over a state without commits and files. If `is_read_only`, the user cannot change marks.
    ///
    /// # Errors
    ///
    /// `NoMemory`.
    pub fn new(is_read_only: bool) -> Result<Session, Error> {
        let session = Session::closed();
        done(unsafe { ffi::gabro_state_new(session.at(), is_read_only) })?;
        Ok(session)
    }

    /// Returns a session over the state with the JSON form `json`, on a screen of `width` columns and `height` rows. It has
    /// begun.
    ///
    /// # Errors
    ///
    /// `BadState`, `NotAccepted` or `NoMemory`.
    pub fn of_json(json: &str, width: u16, height: u16) -> Result<Session, Error> {
        let session = Session::closed();
        let (text, length) = sized(json);
        done(unsafe { ffi::gabro_new(session.at(), text, length, width, height) })?;
        Ok(session)
    }

    // ---- the state

    /// Adds a commit, which can be edited if it has a message.
    ///
    /// # Errors
    ///
    /// As each addition: `NotNow` if the session has begun, `NoItem` if there is no file for a section, `TooLong`, or
    /// `NoMemory`. A third commit is `NotAccepted`.
    pub fn add_commit(&mut self, message: Option<&str>) -> Result<(), Error> {
        done(match message.map(sized) {
            Some((text, length)) => unsafe { ffi::gabro_state_message(self.at(), text, length) },
            None => unsafe { ffi::gabro_state_commit(self.at()) },
        })
    }

    /// Adds a file: its path, its path before a rename or a copy, and its mode before the changes. An empty old path is none.
    ///
    /// # Errors
    ///
    /// Those of [`add_commit`](Session::add_commit).
    pub fn add_file(
        &mut self,
        path: &str,
        old_path: Option<&str>,
        mode: FileMode,
    ) -> Result<(), Error> {
        let (old_path, old_length) = sized(old_path.unwrap_or_default());
        let (path, length) = sized(path);
        let mode = bits(mode);
        done(unsafe { ffi::gabro_state_file(self.at(), path, length, old_path, old_length, mode) })
    }

    /// Adds a file by its two versions. The library finds the lines that differ. [`side_bytes`](Session::side_bytes) returns the
    /// bytes of a side of such a file.
    ///
    /// # Errors
    ///
    /// Those of [`add_commit`](Session::add_commit).
    pub fn add_versions(
        &mut self,
        path: &str,
        old_path: Option<&str>,
        old: Version<'_>,
        new: Version<'_>,
    ) -> Result<(), Error> {
        let (old_path, old_length) = sized(old_path.unwrap_or_default());
        let (path, length) = sized(path);
        let (old_bytes, old_size) = sized(old.bytes);
        let (new_bytes, new_size) = sized(new.bytes);
        let (old_mode, new_mode) = (bits(old.mode), bits(new.mode));
        #[rustfmt::skip]
        let code = unsafe {
            ffi::gabro_state_texts(
                self.at(), path, length, old_path, old_length,
                old_bytes, old_size, old_mode, new_bytes, new_size, new_mode,
            )
        };
        done(code)
    }

    /// Begins a section of the last file. Lines of its kind that are added next go to it.
    ///
    /// # Errors
    ///
    /// Those of [`add_commit`](Session::add_commit).
    pub fn add_section(&mut self, kind: SectionKind) -> Result<(), Error> {
        done(unsafe { ffi::gabro_state_section(self.at(), kind == SectionKind::Changed) })
    }

    /// Adds the lines of `text` to the last file. A line ends behind its line feed, and the last one may lack it.
    ///
    /// # Errors
    ///
    /// Those of [`add_commit`](Session::add_commit).
    pub fn add_lines(&mut self, kind: LineKind, text: &str) -> Result<(), Error> {
        let (text, length) = sized(text);
        done(match kind {
            LineKind::Context => unsafe { ffi::gabro_state_context(self.at(), text, length) },
            LineKind::Changed {
                change_type,
                is_checked,
            } => {
                let is_added = change_type == ChangeType::Added;
                unsafe { ffi::gabro_state_changes(self.at(), is_added, is_checked, text, length) }
            }
        })
    }

    /// Adds one line to the last file, which is the whole of `text`.
    ///
    /// # Errors
    ///
    /// Those of [`add_commit`](Session::add_commit).
    pub fn add_line(&mut self, kind: LineKind, text: &str) -> Result<(), Error> {
        let (text, length) = sized(text);
        let (is_changed, is_added, is_checked) = match kind {
            LineKind::Context => (false, false, false),
            LineKind::Changed {
                change_type,
                is_checked,
            } => (true, change_type == ChangeType::Added, is_checked),
        };
        done(unsafe {
            ffi::gabro_state_line(self.at(), is_changed, is_added, is_checked, text, length)
        })
    }

    /// Adds a section that changes the mode of the last file to `mode`.
    ///
    /// # Errors
    ///
    /// Those of [`add_commit`](Session::add_commit).
    pub fn add_mode(&mut self, mode: FileMode, is_checked: bool) -> Result<(), Error> {
        done(unsafe { ffi::gabro_state_mode(self.at(), is_checked, bits(mode)) })
    }

    /// Adds a section that changes the binary contents of the last file. The texts describe the old and the new contents. An
    /// empty one is none.
    ///
    /// # Errors
    ///
    /// Those of [`add_commit`](Session::add_commit).
    pub fn add_binary(
        &mut self,
        old: Option<&str>,
        new: Option<&str>,
        is_checked: bool,
    ) -> Result<(), Error> {
        let (old, old_length) = sized(old.unwrap_or_default());
        let (new, new_length) = sized(new.unwrap_or_default());
        done(unsafe {
            ffi::gabro_state_binary(self.at(), is_checked, old, old_length, new, new_length)
        })
    }

    /// Sets the marks of all items of file `file`, counted from 0, in the order of the file, as [`marks`](Session::marks) returns
    /// them. Nothing else changes. Call this once the file has all its sections.
    ///
    /// # Errors
    ///
    /// `NotNow` if the session has begun, or `NoItem` if there is no such file or it has more or fewer items.
    pub fn set_marks(&mut self, file: usize, marks: &[bool]) -> Result<(), Error> {
        let bytes: Vec<u8> = marks.iter().map(|mark| u8::from(*mark)).collect();
        let (bytes, count) = sized(&bytes);
        done(unsafe { ffi::gabro_state_marks(self.at(), file, bytes, count) })
    }

    /// Begins the session, on a screen of `width` columns and `height` rows. It has at most [`MAX_COLUMNS`] and [`MAX_ROWS`].
    ///
    /// # Errors
    ///
    /// `NotNow` if the session has begun, `NotAccepted` if the state has too many items, or `NoMemory`: then the session has
    /// ended.
    pub fn begin(&mut self, width: u16, height: u16) -> Result<(), Error> {
        done(unsafe { ffi::gabro_begin(self.at(), width, height) })
    }

    // ---- a layer over the session

    /// Begins the session as [`begin`](Session::begin) does, with a layer: a status row, search, ranges, undo, columns to the
    /// right, and colours of another theme. The last row of the terminal is the status row.
    ///
    /// # Errors
    ///
    /// Those of [`begin`](Session::begin).
    pub fn begin_layer(&mut self, width: u16, height: u16) -> Result<(), Error> {
        done(unsafe { ffi::gabro_begin_layer(self.at(), width, height) })
    }

    /// Returns a session as [`of_json`](Session::of_json) does, with a layer.
    ///
    /// # Errors
    ///
    /// Those of [`of_json`](Session::of_json).
    pub fn layer_of_json(json: &str, width: u16, height: u16) -> Result<Session, Error> {
        let session = Session::closed();
        let (text, length) = sized(json);
        done(unsafe { ffi::gabro_new_layer(session.at(), text, length, width, height) })?;
        Ok(session)
    }

    /// Has the layer paint in the colours of `theme`.
    ///
    /// # Errors
    ///
    /// `NotNow` if there is no layer.
    pub fn set_theme(&mut self, theme: Theme) -> Result<(), Error> {
        done(unsafe { ffi::gabro_theme(self.at(), theme as u32) })
    }

    /// Sets the words by which the status row says what accepting does, as "c commits".
    ///
    /// # Errors
    ///
    /// `TooLong`, `NotNow` if there is no layer, or `NoMemory`.
    pub fn set_accept_text(&mut self, text: &str) -> Result<(), Error> {
        let (text, length) = sized(text);
        done(unsafe { ffi::gabro_accept_text(self.at(), text, length) })
    }

    /// Shows `text` in the header of section `section` of file `file`, both counted from 0, in place of its number, or the number
    /// again for an empty text.
    ///
    /// # Errors
    ///
    /// `TooLong`, `NotNow` if there is no layer, or `NoMemory`.
    pub fn set_label(&mut self, file: usize, section: usize, text: &str) -> Result<(), Error> {
        let (text, length) = sized(text);
        done(unsafe { ffi::gabro_label(self.at(), file, section, text, length) })
    }

    /// Shows behind the title of each section of changed lines the line that the section stands in, as git shows it behind `@@`. A
    /// section that has a label keeps it. Call this once, behind the calls of `set_label`.
    ///
    /// # Errors
    ///
    /// `NotNow` if the session has no layer or waits for no event, or `NoMemory`: then some sections show it.
    pub fn name_sections(&mut self) -> Result<(), Error> {
        done(unsafe { ffi::gabro_name_sections(self.at()) })
    }

    /// Unfolds what `folds` says, and selects the item that `first` names, if there is one.
    ///
    /// # Errors
    ///
    /// `NotNow` if the session has no layer or waits for no event.
    pub fn start(&mut self, folds: Folds, first: Key) -> Result<(), Error> {
        done(unsafe { ffi::gabro_start(self.at(), folds as u32, &first.into()) })
    }

    /// Sets the keys of the user's own, in place of those before: parts `KEY=WORD`, separated by spaces. `gabrosty.h` names the words.
    ///
    /// # Errors
    ///
    /// `NoKey`, `NotNow` if the session has no layer or waits for no event, or `NoMemory`.
    pub fn set_keys(&mut self, text: &str) -> Result<(), Error> {
        let (text, length) = sized(text);
        done(unsafe { ffi::gabro_keys(self.at(), text, length) })
    }

    /// Begins to log the calls of the session beneath the layer, before the first of them.
    ///
    /// # Errors
    ///
    /// `NotNow` if a call was made before, or the session has no layer or waits for no event.
    pub fn log(&mut self) -> Result<(), Error> {
        done(unsafe { ffi::gabro_log(self.at()) })
    }

    /// Returns the logged calls, a line each. `gabrosty.h` says what each line is.
    ///
    /// # Errors
    ///
    /// `NotNow` if there is no log, or the session has ended in an error, or `NoMemory`.
    pub fn logged(&self) -> Result<String, Error> {
        text_of(|out, room, length| unsafe { ffi::gabro_logged(self.at(), out, room, length) })
    }

    // ---- the user's input

    /// Returns what the session waits for.
    #[must_use]
    pub fn stage(&self) -> Stage {
        match unsafe { ffi::gabro_stage(self.at()) } {
            0 => Stage::Waiting,
            1 => Stage::Editing,
            2 => Stage::Accepted,
            3 => Stage::Ended,
            5 => Stage::Building,
            _ => Stage::Closed,
        }
    }

    /// Returns the dialog that is open, or `None` without one, and while the session waits for no event.
    #[must_use]
    pub fn dialog(&self) -> Option<Dialog> {
        match unsafe { ffi::gabro_dialog(self.at()) } {
            1 => Some(Dialog::Question),
            2 => Some(Dialog::Help),
            _ => None,
        }
    }

    /// Returns how the session ended, or `None` if it has not.
    #[must_use]
    pub fn end(&self) -> Option<End> {
        match unsafe { ffi::gabro_end(self.at()) } {
            0 => None,
            1 => Some(End::Accepted),
            2 => Some(End::Cancelled),
            3 => Some(End::NoMemory),
            _ => Some(End::Other),
        }
    }

    /// Handles the event of a script's word.
    ///
    /// # Errors
    ///
    /// `NoWord`, or `NotNow` if the session does not wait for an event.
    pub fn press(&mut self, word: &str) -> Result<(), Error> {
        let (word, length) = sized(word);
        done(unsafe { ffi::gabro_press(self.at(), word, length) })
    }

    /// Handles the events of `words`, which are separated by spaces, as one batch: a click acts on what was drawn before the batch,
    /// and the screen is drawn behind the last event. If an event asks for a message, `answer` handles the later ones.
    ///
    /// # Errors
    ///
    /// `NoWord`, `NotNow` if the session does not wait for an event, or `NoMemory`.
    pub fn press_all(&mut self, words: &str) -> Result<(), Error> {
        let (words, length) = sized(words);
        done(unsafe { ffi::gabro_press_all(self.at(), words, length) })
    }

    /// Handles the events of `words` as [`press_all`](Session::press_all) does, and returns how many of them were handled: those up to
    /// the first that ended the session or asked for a message, that one included, and else all. An event that a clicked menu item
    /// leaves is none of the batch. If an allocation failed while they were handled, the session has ended, and the number may be 0.
    ///
    /// # Errors
    ///
    /// `NoWord`, `NotNow` if the session does not wait for an event or has a layer, or `NoMemory`.
    pub fn press_and_count(&mut self, words: &str) -> Result<usize, Error> {
        let (words, length) = sized(words);
        let mut handled = 0;
        done(unsafe { ffi::gabro_press_and_count(self.at(), words, length, &mut handled) })?;
        Ok(handled)
    }

    /// Returns the events of `bytes`, which a terminal sent, and handles none. They may be any part of what it sends. The session
    /// need not have begun.
    ///
    /// # Errors
    ///
    /// `NoMemory`.
    pub fn decode(&mut self, bytes: &[u8]) -> Result<Vec<Event>, Error> {
        let (bytes, count) = sized(bytes);
        let words = text_of(|out, room, length| unsafe {
            ffi::gabro_decode(self.at(), bytes, count, out, room, length)
        })?;
        Ok(events_of(&words))
    }

    /// Returns the event of a silence of the terminal, if it has one, and handles none.
    ///
    /// # Errors
    ///
    /// `NoMemory`.
    pub fn decode_idle(&mut self) -> Result<Vec<Event>, Error> {
        let words = text_of(|out, room, length| unsafe {
            ffi::gabro_decode_idle(self.at(), out, room, length)
        })?;
        Ok(events_of(&words))
    }

    /// Returns whether the last byte was an ESC that a silence would make the Esc key: only then [`idle`](Session::idle) has to be
    /// called after a silence. Within a paste it is false: there silences only let ctrl-C end a paste whose end was lost.
    ///
    /// # Errors
    ///
    /// `NoMemory`.
    pub fn is_escape_pending(&self) -> Result<bool, Error> {
        let (mut room, mut length) = ([0; 1], 0);
        let out = room.as_mut_ptr();
        done(unsafe { ffi::gabro_decode_idle(self.at(), out, 0, &mut length) })?;
        Ok(length > 0)
    }

    /// Handles `bytes`, which a terminal sent. They may be any part of what it sends.
    ///
    /// # Errors
    ///
    /// `NotNow` if the session does not wait for an event.
    pub fn type_bytes(&mut self, bytes: &[u8]) -> Result<(), Error> {
        let (bytes, length) = sized(bytes);
        done(unsafe { ffi::gabro_type(self.at(), bytes, length) })
    }

    /// Handles `bytes`, which a terminal sent, up to the first key that means nothing to a session, and returns how many bytes that
    /// were, and the key: its character, or of a letter with control 1 to 26. So a program can have keys of its own. While a layer asks
    /// for a text, no key is returned, also where bytes are left.
    ///
    /// # Errors
    ///
    /// `NotNow` if the session does not wait for an event.
    pub fn type_to_key(&mut self, bytes: &[u8]) -> Result<(usize, Option<char>), Error> {
        let (bytes, length) = sized(bytes);
        let (mut taken, mut key) = (0, 0);
        done(unsafe { ffi::gabro_type_to_key(self.at(), bytes, length, &mut taken, &mut key) })?;
        Ok((taken, char::from_u32(key).filter(|key| *key != '\0')))
    }

    /// Handles the silence of a terminal: no byte came for about 50 milliseconds.
    ///
    /// # Errors
    ///
    /// `NotNow` if the session does not wait for an event.
    pub fn idle(&mut self) -> Result<(), Error> {
        done(unsafe { ffi::gabro_idle(self.at()) })
    }

    /// Handles a click at `row`, `column` of the screen, counted from 0.
    ///
    /// # Errors
    ///
    /// `NotNow` if the session does not wait for an event.
    pub fn click(&mut self, row: u16, column: u16) -> Result<(), Error> {
        done(unsafe { ffi::gabro_click(self.at(), row, column) })
    }

    /// Selects the item that `key` names, unfolds what it lies in, and scrolls to it. Its commit is 0 as long as one commit is
    /// shown. So a line `select` of a log is a call.
    ///
    /// # Errors
    ///
    /// `NotNow` if the session does not wait for an event, or `NoItem` if the key names no file, no section with a checkbox and no
    /// changed line, or the quit dialog is open.
    pub fn select(&mut self, key: Key) -> Result<(), Error> {
        done(unsafe { ffi::gabro_select(self.at(), &key.into()) })
    }

    /// Answers with the message that the session waits for.
    ///
    /// # Errors
    ///
    /// `TooLong`, `NotNow` if the session waits for no message, or `NoMemory`.
    pub fn answer(&mut self, message: &str) -> Result<(), Error> {
        let (message, length) = sized(message);
        done(unsafe { ffi::gabro_answer(self.at(), message, length) })
    }

    /// Answers as [`answer`](Session::answer) does, and returns how many of the later events of the batch were handled: those up to the
    /// first that ended the session or asked for a message, that one included, and else all. If an event that a clicked menu item left
    /// asked for the message, the events that menu items left behind that one are counted. If an allocation failed while they were
    /// handled, the session has ended, and the number may be 0.
    ///
    /// # Errors
    ///
    /// `TooLong`, `NotNow` if the session waits for no message or has a layer, or `NoMemory`.
    pub fn answer_and_count(&mut self, message: &str) -> Result<usize, Error> {
        let (message, length) = sized(message);
        let mut handled = 0;
        done(unsafe { ffi::gabro_answer_and_count(self.at(), message, length, &mut handled) })?;
        Ok(handled)
    }

    /// Resizes the screen to `width` columns and `height` rows.
    ///
    /// # Errors
    ///
    /// `NotNow` if the session does not wait for an event, or `NoMemory`.
    pub fn resize(&mut self, width: u16, height: u16) -> Result<(), Error> {
        done(unsafe { ffi::gabro_resize(self.at(), width, height) })
    }

    // ---- the screen

    /// Returns the bytes that make a terminal of the session's size show it: all rows at first, and then those that changed.
    ///
    /// # Errors
    ///
    /// `NotNow` if the session does not wait for an event, or `NoMemory`.
    pub fn paint(&mut self) -> Result<Vec<u8>, Error> {
        bytes_of(PAINT_ROOM, |out, room, length| unsafe {
            ffi::gabro_paint(self.at(), out, room, length)
        })
    }

    /// Makes the next [`paint`](Session::paint) return every row.
    ///
    /// # Errors
    ///
    /// `Closed`, which no session of this type is.
    pub fn repaint(&mut self) -> Result<(), Error> {
        done(unsafe { ffi::gabro_repaint(self.at()) })
    }

    /// Returns the owner of a place of the screen, and its key.
    #[must_use]
    pub fn owner(&self, row: u16, column: u16) -> (Owner, Key) {
        let mut key = ffi::Key::from(Key::default());
        let code = unsafe { ffi::gabro_owner(self.at(), row, column, &mut key) };
        let owner = OWNERS.get(code as usize).copied().unwrap_or(Owner::Nobody);
        let key = if owner == Owner::Nobody {
            Key::default()
        } else {
            Key::from(key)
        };
        (owner, key)
    }

    /// Returns the key of the selected item. All of it is `None` if nothing is selected.
    ///
    /// # Errors
    ///
    /// `NotNow` if the session does not wait for an event.
    pub fn selected(&self) -> Result<Key, Error> {
        let mut key = ffi::Key::from(Key::default());
        done(unsafe { ffi::gabro_selected(self.at(), &mut key) })?;
        Ok(Key::from(key))
    }

    /// Returns where the selected item is: its file, and its first line in both versions of that file.
    ///
    /// # Errors
    ///
    /// `NotNow` if nothing is selected, or the session does not wait for an event.
    pub fn selected_line(&self) -> Result<LinePlace, Error> {
        let mut place = LinePlace::default();
        let LinePlace {
            file,
            old_line,
            new_line,
        } = &mut place;
        done(unsafe { ffi::gabro_selected_line(self.at(), file, old_line, new_line) })?;
        Ok(place)
    }

    /// Returns the symbol that begins at a place of the screen, also on the status row of a layer. It is empty at the second column of
    /// a wide symbol, and outside the screen; on the status row also if an allocation failed.
    #[must_use]
    pub fn symbol(&self, row: u16, column: u16) -> String {
        let symbol = bytes_of(SYMBOL_ROOM, |out, room, length| {
            *length = unsafe { ffi::gabro_symbol(self.at(), row, column, out, room) };
            0
        });
        symbol.map(text).unwrap_or_default()
    }

    /// Returns the text of the stage: the rows of the screen, each in quotes, with the status row of a layer below them; the message
    /// before an edit; the sentence of an error; or a report of what is accepted.
    ///
    /// # Errors
    ///
    /// `NoMemory`.
    pub fn text(&self) -> Result<String, Error> {
        text_of(|out, room, length| unsafe { ffi::gabro_text(self.at(), out, room, length) })
    }

    // ---- the answer

    /// Returns the number of files.
    ///
    /// # Errors
    ///
    /// As each question: `NotNow` if there is no state to ask (while a message is edited, or behind an error), or `NoItem`.
    pub fn file_count(&self) -> Result<usize, Error> {
        let mut count = 0;
        done(unsafe { ffi::gabro_files(self.at(), &mut count) })?;
        Ok(count)
    }

    /// Returns `side` of file `file`, counted from 0.
    ///
    /// # Errors
    ///
    /// Those of [`file_count`](Session::file_count), or `NoMemory`.
    pub fn side(&self, file: usize, side: Side) -> Result<FileSide, Error> {
        let is_selected = side == Side::Selected;
        let mut told = ffi::SideInfo::default();
        let text = text_of(|out, room, length| {
            let code = unsafe { ffi::gabro_side(self.at(), file, is_selected, out, room, &mut told) };
            *length = told.length;
            code
        })?;
        Ok(FileSide {
            mode: mode_of(told.mode),
            contents: match told.contents {
                0 => SideContents::Unchanged,
                1 => SideContents::Text(text),
                _ => SideContents::Binary,
            },
        })
    }

    /// Returns the bytes of `side` of file `file`, counted from 0, in which no two lines are joined: what to write of a file that
    /// [`add_versions`](Session::add_versions) added.
    ///
    /// # Errors
    ///
    /// Those of [`side`](Session::side).
    pub fn side_bytes(&self, file: usize, side: Side) -> Result<Vec<u8>, Error> {
        let is_selected = side == Side::Selected;
        bytes_of(TEXT_ROOM, |out, room, length| unsafe {
            ffi::gabro_side_bytes(self.at(), file, is_selected, out, room, length)
        })
    }

    /// Returns the mark of what `key` names. Its commit does not matter.
    ///
    /// # Errors
    ///
    /// Those of [`file_count`](Session::file_count).
    pub fn mark(&self, key: Key) -> Result<Tristate, Error> {
        let mut mark = 0;
        done(unsafe { ffi::gabro_mark(self.at(), &key.into(), &mut mark) })?;
        Ok(match mark {
            0 => Tristate::False,
            1 => Tristate::Partial,
            _ => Tristate::True,
        })
    }

    /// Returns the marks of all items of file `file`, counted from 0, in the order of the file.
    ///
    /// # Errors
    ///
    /// Those of [`side`](Session::side).
    pub fn marks(&self, file: usize) -> Result<Vec<bool>, Error> {
        let bytes = bytes_of(TEXT_ROOM, |out, room, length| unsafe {
            ffi::gabro_marks(self.at(), file, out, room, length)
        })?;
        Ok(bytes.iter().map(|byte| *byte == 1).collect())
    }

    /// Returns what the file, the section or the line is that `key` names, and how many parts it has. Its commit does not matter.
    ///
    /// # Errors
    ///
    /// Those of [`file_count`](Session::file_count).
    pub fn item(&self, key: Key) -> Result<Item, Error> {
        let (mut kind, mut parts) = (0, 0);
        done(unsafe { ffi::gabro_item(self.at(), &key.into(), &mut kind, &mut parts) })?;
        let kind = OWNERS.get(kind as usize).copied().unwrap_or(Owner::Nobody);
        Ok(Item { kind, parts })
    }

    /// Returns the path of file `file`, counted from 0.
    ///
    /// # Errors
    ///
    /// Those of [`file_count`](Session::file_count).
    pub fn path(&self, file: usize) -> Result<String, Error> {
        text_of(|out, room, length| unsafe {
            ffi::gabro_path(self.at(), file, false, out, room, length)
        })
    }

    /// Returns the path of file `file`, counted from 0, before a rename or a copy.
    ///
    /// # Errors
    ///
    /// Those of [`file_count`](Session::file_count). `NoItem` also of a file without such a path.
    pub fn old_path(&self, file: usize) -> Result<String, Error> {
        text_of(|out, room, length| unsafe {
            ffi::gabro_path(self.at(), file, true, out, room, length)
        })
    }

    /// Returns the text of the line that `key` names.
    ///
    /// # Errors
    ///
    /// Those of [`file_count`](Session::file_count).
    pub fn line(&self, key: Key) -> Result<String, Error> {
        let key = ffi::Key::from(key);
        text_of(|out, room, length| unsafe { ffi::gabro_line(self.at(), &key, out, room, length) })
    }

    /// Returns the message of commit `commit`, counted from 0.
    ///
    /// # Errors
    ///
    /// Those of [`file_count`](Session::file_count). A commit without a message is `NoItem`.
    pub fn message(&self, commit: usize) -> Result<String, Error> {
        text_of(|out, room, length| unsafe {
            ffi::gabro_message(self.at(), commit, out, room, length)
        })
    }
}
