//! What the tests share: states, inputs, and the rows of a screenshot.
#![allow(dead_code)]
pub mod json;

use scm_record::helpers::TestingInput;
use scm_record::{
    ChangeType, Event, File, FileMode, RecordError, RecordInput, RecordState, Recorder, Section,
    SectionChangedLine, TerminalKind, TestingScreenshot,
};
use std::borrow::Cow;
use std::collections::VecDeque;
use std::path::Path;

pub const OUTWARDS: Event = Event::FocusOuter { fold_section: true };

pub fn line(change_type: ChangeType, is_checked: bool, line: &str) -> SectionChangedLine<'_> {
    SectionChangedLine {
        is_checked,
        change_type,
        line: Cow::Borrowed(line),
    }
}

pub fn added(is_checked: bool, text: &str) -> SectionChangedLine<'_> {
    line(ChangeType::Added, is_checked, text)
}

pub fn removed(is_checked: bool, text: &str) -> SectionChangedLine<'_> {
    line(ChangeType::Removed, is_checked, text)
}

pub fn changed(lines: Vec<SectionChangedLine<'_>>) -> Section<'_> {
    Section::Changed { lines }
}

pub fn context<'a>(lines: &[&'a str]) -> Section<'a> {
    let lines = lines.iter().map(|line| Cow::Borrowed(*line)).collect();
    Section::Unchanged { lines }
}

pub fn mode(is_checked: bool, mode: FileMode) -> Section<'static> {
    Section::FileMode { is_checked, mode }
}

pub fn binary<'a>(is_checked: bool, old: Option<&'a str>, new: Option<&'a str>) -> Section<'a> {
    Section::Binary {
        is_checked,
        old_description: old.map(Cow::Borrowed),
        new_description: new.map(Cow::Borrowed),
    }
}

pub fn file<'a>(path: &'a str, sections: Vec<Section<'a>>) -> File<'a> {
    File {
        old_path: None,
        path: Cow::Borrowed(Path::new(path)),
        file_mode: FileMode::FILE_DEFAULT,
        sections,
    }
}

pub fn state(files: Vec<File<'_>>) -> RecordState<'_> {
    RecordState {
        files,
        ..RecordState::default()
    }
}

/// The file `f` with the line `a`, of whose two changed lines the second one is checked.
pub fn mixed_file() -> File<'static> {
    let lines = vec![removed(false, "b\n"), added(true, "c\n")];
    file("f", vec![context(&["a\n"]), changed(lines)])
}

/// Returns how a run over `state` ends, with one event at each read.
pub fn run(
    state: RecordState<'_>,
    size: (usize, usize),
    events: Vec<Event>,
) -> Result<RecordState<'_>, RecordError> {
    let mut input = TestingInput::new(size.0, size.1, events);
    Recorder::new(state, &mut input).run()
}

/// Returns the rows of the screen behind `events`, without the blanks at their ends.
pub fn rows_after(state: RecordState<'_>, size: (usize, usize), events: Vec<Event>) -> Vec<String> {
    let batches = events.into_iter().map(|event| vec![event]).collect();
    rows_after_batches(state, size, batches)
}

/// Returns the rows of the screen behind reads that return these events.
pub fn rows_after_batches(
    state: RecordState<'_>,
    size: (usize, usize),
    mut batches: Vec<Vec<Event>>,
) -> Vec<String> {
    let shot = TestingScreenshot::default();
    batches.push(vec![shot.event()]);
    let mut input = Batches::new(size, batches);
    let ended = Recorder::new(state, &mut input).run();
    assert!(matches!(ended, Err(RecordError::Cancelled)), "{ended:?}");
    rows_of(&shot)
}

/// Returns the rows of a screenshot, without the blanks at their ends.
pub fn rows_of(shot: &TestingScreenshot) -> Vec<String> {
    let shown = shot.to_string();
    let inner = |row: &str| row.strip_prefix('"')?.strip_suffix('"').map(str::to_owned);
    let rows = shown
        .lines()
        .map(|row| inner(row).expect("each row is in quotes"));
    rows.map(|row| row.trim_end().to_owned()).collect()
}

/// Returns the columns `from..to` of a row of symbols with one column each.
pub fn columns(row: &str, from: usize, to: usize) -> String {
    row.chars().skip(from).take(to - from).collect()
}

/// An input of whole batches. Behind the last one it cancels.
pub struct Batches {
    size: (usize, usize),
    batches: VecDeque<Vec<Event>>,
}

impl Batches {
    pub fn new(size: (usize, usize), batches: Vec<Vec<Event>>) -> Batches {
        let batches = batches.into();
        Batches { size, batches }
    }
}

impl RecordInput for Batches {
    fn terminal_kind(&self) -> TerminalKind {
        let (width, height) = self.size;
        TerminalKind::Testing { width, height }
    }

    fn next_events(&mut self) -> Result<Vec<Event>, RecordError> {
        match self.batches.pop_front() {
            Some(batch) => Ok(batch),
            None => Err(RecordError::Cancelled),
        }
    }

    fn edit_commit_message(&mut self, message: &str) -> Result<String, RecordError> {
        Ok(message.to_owned())
    }
}
