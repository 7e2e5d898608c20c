//! The library for C, as its header `gabrosty.h` declares it. Only `session.rs`, `trees.rs` and `merges.rs` call it.
use std::os::raw::{c_char, c_int, c_void};

/// Stands for no file in a mode, and for nothing in a key.
pub const NOTHING: usize = usize::MAX;

/// The most columns of a screen.
pub const MAX_COLUMNS: u16 = 1000;

/// The most rows of a screen.
pub const MAX_ROWS: u16 = 1000;

/// A session: all zeros if it is closed. Its members are the library's own.
#[repr(C)]
#[derive(Debug)]
pub struct Handle {
    is_open: bool,
    at: *mut c_void,
}

impl Handle {
    /// A closed session.
    pub const CLOSED: Handle = Handle {
        is_open: false,
        at: std::ptr::null_mut(),
    };
}

/// One side of a file.
#[repr(C)]
#[derive(Debug, Default)]
pub struct SideInfo {
    pub contents: u32,
    pub mode: usize,
    pub length: usize,
}

/// A changed file.
#[repr(C)]
#[derive(Debug)]
pub struct Changed {
    pub old_mode: usize,
    pub new_mode: usize,
    pub shown: u32,
    pub is_renamed: bool,
}

/// What a state is given of a changed file.
#[repr(C)]
#[derive(Debug, Default)]
pub struct Shown {
    pub old_mode: usize,
    pub new_mode: usize,
    pub has_mode: bool,
    pub has_contents: bool,
}

/// What a tree has of a changed file.
#[repr(C)]
#[derive(Debug, Default)]
pub struct InTree {
    pub mode: usize,
    pub old_path_mode: usize,
    pub contents: u32,
}

/// A commit, a file, a section and a line, counted from 0, or `NOTHING`.
#[repr(C)]
#[derive(Clone, Copy, Debug)]
pub struct Key {
    pub commit: usize,
    pub file: usize,
    pub section: usize,
    pub line: usize,
}

/// One place of a screen, whose symbol is a part of the text of the screen.
#[repr(C)]
#[derive(Clone, Copy, Debug, Default)]
pub struct Cell {
    pub start: usize,
    pub length: usize,
    pub columns: usize,
    pub foreground: u32,
    pub background: u32,
    pub flags: u32,
}

/// Where a pager stands: in the library's terms, with the line and the file counted from 0.
#[repr(C)]
#[derive(Clone, Copy, Debug, Default, Eq, PartialEq)]
pub struct Pager {
    pub file: usize,
    pub top: usize,
    pub left: u16,
    pub selected: bool,
    pub is_open: bool,
}

/// What there is to tell of a screen.
#[repr(C)]
#[derive(Debug, Default)]
pub struct ScreenInfo {
    pub columns: usize,
    pub rows: usize,
    pub length: usize,
}

/// The attributes of a place.
pub const BOLD: u32 = 1;
pub const DIM: u32 = 2;
pub const UNDERLINED: u32 = 4;
pub const REVERSED: u32 = 8;

type Session = *mut Handle;
type Asked = *const Handle;
type Bytes = *const c_char;
type Room = *mut c_char;

#[rustfmt::skip]
extern "C" {
    pub fn gabro_state_new(session: Session, is_read_only: bool) -> u32;
    pub fn gabro_state_message(session: Session, text: Bytes, length: usize) -> u32;
    pub fn gabro_state_commit(session: Session) -> u32;
    pub fn gabro_state_file(session: Session, path: Bytes, length: usize, old_path: Bytes, old_length: usize, mode: usize) -> u32;
    pub fn gabro_state_context(session: Session, text: Bytes, length: usize) -> u32;
    pub fn gabro_state_changes(session: Session, is_added: bool, is_checked: bool, text: Bytes, length: usize) -> u32;
    pub fn gabro_state_line(session: Session, is_changed: bool, is_added: bool, is_checked: bool, text: Bytes, length: usize) -> u32;
    pub fn gabro_state_section(session: Session, is_changed: bool) -> u32;
    pub fn gabro_state_mode(session: Session, is_checked: bool, mode: usize) -> u32;
    pub fn gabro_state_binary(session: Session, is_checked: bool, old_text: Bytes, old_length: usize, new_text: Bytes, new_length: usize) -> u32;
    pub fn gabro_state_texts(session: Session, path: Bytes, length: usize, old_path: Bytes, old_length: usize, old: Bytes, old_size: usize, old_mode: usize, new: Bytes, new_size: usize, new_mode: usize) -> u32;
    pub fn gabro_begin(session: Session, width: u16, height: u16) -> u32;
    pub fn gabro_new(session: Session, json: Bytes, length: usize, width: u16, height: u16) -> u32;
    pub fn gabro_begin_layer(session: Session, width: u16, height: u16) -> u32;
    pub fn gabro_new_layer(session: Session, json: Bytes, length: usize, width: u16, height: u16) -> u32;
    pub fn gabro_theme(session: Session, theme: u32) -> u32;
    pub fn gabro_accept_text(session: Session, text: Bytes, length: usize) -> u32;
    pub fn gabro_name_sections(session: Session) -> u32;
    pub fn gabro_label(session: Session, file: usize, section: usize, text: Bytes, length: usize) -> u32;
    pub fn gabro_start(session: Session, folds: u32, first: *const Key) -> u32;
    pub fn gabro_keys(session: Session, text: Bytes, length: usize) -> u32;
    pub fn gabro_log(session: Session) -> u32;
    pub fn gabro_logged(session: Asked, out: Room, length: usize, written: *mut usize) -> u32;
    pub fn gabro_stage(session: Asked) -> u32;
    pub fn gabro_dialog(session: Asked) -> u32;
    pub fn gabro_end(session: Asked) -> u32;
    pub fn gabro_type(session: Session, bytes: Bytes, length: usize) -> u32;
    pub fn gabro_type_to_key(session: Session, bytes: Bytes, length: usize, taken: *mut usize, key: *mut u32) -> u32;
    pub fn gabro_idle(session: Session) -> u32;
    pub fn gabro_press(session: Session, word: Bytes, length: usize) -> u32;
    pub fn gabro_press_all(session: Session, words: Bytes, length: usize) -> u32;
    pub fn gabro_press_and_count(session: Session, words: Bytes, length: usize, handled: *mut usize) -> u32;
    pub fn gabro_decode(session: Session, bytes: Bytes, length: usize, out: Room, room: usize, written: *mut usize) -> u32;
    pub fn gabro_decode_idle(session: Session, out: Room, room: usize, written: *mut usize) -> u32;
    pub fn gabro_click(session: Session, row: u16, column: u16) -> u32;
    pub fn gabro_answer(session: Session, text: Bytes, length: usize) -> u32;
    pub fn gabro_answer_and_count(session: Session, text: Bytes, length: usize, handled: *mut usize) -> u32;
    pub fn gabro_resize(session: Session, width: u16, height: u16) -> u32;
    pub fn gabro_paint(session: Session, out: Room, length: usize, written: *mut usize) -> u32;
    pub fn gabro_cells(session: Asked, cells: *mut Cell, count: usize, out: Room, room: usize, info: *mut ScreenInfo) -> u32;
    pub fn gabro_repaint(session: Session) -> u32;
    pub fn gabro_owner(session: Asked, row: u16, column: u16, key: *mut Key) -> u32;
    pub fn gabro_selected(session: Asked, key: *mut Key) -> u32;
    pub fn gabro_selected_line(session: Asked, file: *mut usize, old_line: *mut usize, new_line: *mut usize) -> u32;
    pub fn gabro_symbol(session: Asked, row: u16, column: u16, out: Room, length: usize) -> usize;
    pub fn gabro_text(session: Asked, out: Room, length: usize, written: *mut usize) -> u32;
    pub fn gabro_files(session: Asked, count: *mut usize) -> u32;
    pub fn gabro_side(session: Asked, file: usize, selected: bool, out: Room, length: usize, side: *mut SideInfo) -> u32;
    pub fn gabro_side_bytes(session: Asked, file: usize, selected: bool, out: Room, length: usize, written: *mut usize) -> u32;
    pub fn gabro_pager_open(session: Asked, file: usize, selected: bool, pager: *mut Pager) -> u32;
    pub fn gabro_pager_show(session: Asked, pager: *mut Pager, section: usize, line: usize, height: u16) -> u32;
    pub fn gabro_pager_type(session: Asked, pager: *mut Pager, bytes: Bytes, length: usize, width: u16, height: u16) -> u32;
    pub fn gabro_pager_paint(session: Asked, pager: *const Pager, width: u16, height: u16, out: Room, length: usize, written: *mut usize) -> u32;
    pub fn gabro_mark(session: Asked, key: *const Key, mark: *mut u32) -> u32;
    pub fn gabro_item(session: Asked, key: *const Key, kind: *mut u32, parts: *mut usize) -> u32;
    pub fn gabro_path(session: Asked, file: usize, is_old: bool, out: Room, length: usize, written: *mut usize) -> u32;
    pub fn gabro_select(session: Session, key: *const Key) -> u32;
    pub fn gabro_state_marks(session: Session, file: usize, marks: Bytes, count: usize) -> u32;
    pub fn gabro_marks(session: Asked, file: usize, out: Room, length: usize, written: *mut usize) -> u32;
    pub fn gabro_line(session: Asked, key: *const Key, out: Room, length: usize, written: *mut usize) -> u32;
    pub fn gabro_message(session: Asked, commit: usize, out: Room, length: usize, written: *mut usize) -> u32;
    pub fn gabro_run(session: Session, terminal: c_int, title: Bytes) -> c_int;
    pub fn gabro_decide_rows(rows: Bytes, length: usize, out: Room, room: usize, written: *mut usize) -> u32;
    pub fn gabro_path_fault(path: Bytes, length: usize) -> u32;
    pub fn gabro_tree_shown(changed: *const Changed, is_other: bool, shown: *mut Shown);
    pub fn gabro_tree_side(changed: *const Changed, selected: bool, side: *const SideInfo, in_tree: *mut InTree);
    pub fn gabro_merge_texts(base: Bytes, base_length: usize, ours: Bytes, our_length: usize, theirs: Bytes, their_length: usize, out: Room, room: usize, written: *mut usize) -> u32;
    pub fn gabro_merged_bytes(base: Bytes, base_length: usize, ours: Bytes, our_length: usize, theirs: Bytes, their_length: usize, marks: Bytes, count: usize, out: Room, room: usize, written: *mut usize) -> u32;
    pub fn gabro_open_conflicts(base: Bytes, base_length: usize, ours: Bytes, our_length: usize, theirs: Bytes, their_length: usize, marks: Bytes, count: usize, open: *mut usize) -> u32;
    pub fn gabro_marked_bytes(base: Bytes, base_length: usize, ours: Bytes, our_length: usize, theirs: Bytes, their_length: usize, marks: Bytes, count: usize, base_label: Bytes, base_label_length: usize, our_label: Bytes, our_label_length: usize, their_label: Bytes, their_label_length: usize, marker_length: usize, out: Room, room: usize, written: *mut usize) -> u32;
    pub fn gabro_without_blank_changes(old: Bytes, old_length: usize, new: Bytes, new_length: usize, out: Room, room: usize, written: *mut usize, left_out: *mut usize) -> u32;
    pub fn gabro_words(code: u32, out: Room, length: usize) -> usize;
    pub fn gabro_version() -> u32;
    pub fn gabro_free(session: Session);
}
