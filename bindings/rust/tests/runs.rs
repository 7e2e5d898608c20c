//! Runs: inputs, messages, screenshots and errors.
mod common;

use common::*;
use scm_record::helpers::{CrosstermInput, TestingInput};
use scm_record::{
    Commit, Event, RecordError, RecordInput, RecordState, Recorder, TerminalKind,
    TestingScreenshot, Tristate,
};
use std::cell::RefCell;
use std::error::Error;
use std::io;

const SIZE: (usize, usize) = (60, 12);

fn with_messages(messages: [Option<&str>; 2]) -> RecordState<'static> {
    let commits = messages.map(|message| Commit {
        message: message.map(str::to_owned),
    });
    RecordState {
        commits: commits.into(),
        ..state(vec![mixed_file()])
    }
}

fn messages_of(state: &RecordState<'_>) -> Vec<Option<String>> {
    state
        .commits
        .iter()
        .map(|commit| commit.message.clone())
        .collect()
}

/// An input that returns what closures return, and keeps the messages that are edited.
struct Scripted<Read, Edit> {
    read: Read,
    edit: Edit,
    edited: Vec<String>,
}

impl<Read, Edit> RecordInput for Scripted<Read, Edit>
where
    Read: FnMut() -> Result<Vec<Event>, RecordError>,
    Edit: FnMut() -> Result<String, RecordError>,
{
    fn terminal_kind(&self) -> TerminalKind {
        let (width, height) = SIZE;
        TerminalKind::Testing { width, height }
    }

    fn next_events(&mut self) -> Result<Vec<Event>, RecordError> {
        (self.read)()
    }

    fn edit_commit_message(&mut self, message: &str) -> Result<String, RecordError> {
        self.edited.push(message.to_owned());
        (self.edit)()
    }
}

#[test]
fn a_testing_input_returns_its_events_one_by_one() {
    let mut input = TestingInput::new(80, 24, [Event::QuitCancel, Event::Help]);
    assert!(matches!(
        input.terminal_kind(),
        TerminalKind::Testing {
            width: 80,
            height: 24
        }
    ));
    for event in [Event::QuitCancel, Event::Help, Event::None, Event::None] {
        assert_eq!(input.next_events().unwrap(), [event]);
    }
    assert!(input.commit_messages.is_empty());
    let error = input.edit_commit_message("before").unwrap_err();
    assert_eq!(error.to_string(), "No more commit messages available");
}

#[test]
fn a_terminal_input_keeps_messages() {
    assert!(matches!(
        CrosstermInput.terminal_kind(),
        TerminalKind::Crossterm
    ));
    assert_eq!(
        CrosstermInput.edit_commit_message("as it is").unwrap(),
        "as it is"
    );
}

#[test]
fn commits_are_added_up_to_two() {
    let accepted = run(RecordState::default(), SIZE, vec![Event::QuitAccept]).unwrap();
    assert_eq!(accepted.commits, [Commit::default(), Commit::default()]);
}

#[test]
fn a_message_is_edited_by_the_input() {
    let given = with_messages([Some("one"), Some("two")]);
    let mut input = TestingInput::new(60, 12, [Event::EditCommitMessage, Event::QuitAccept]);
    input.commit_messages.push_back("new\nlines\n".to_owned());
    let accepted = Recorder::new(given, &mut input).run().unwrap();
    assert_eq!(
        messages_of(&accepted),
        [Some("new\nlines\n".to_owned()), Some("two".to_owned())]
    );
}

#[test]
fn without_a_message_the_input_is_not_asked() {
    let mut input = Scripted {
        read: {
            let mut events = [Event::EditCommitMessage, Event::QuitAccept].into_iter();
            move || Ok(vec![events.next().unwrap()])
        },
        edit: || panic!("no message is there to edit"),
        edited: Vec::new(),
    };
    let accepted = Recorder::new(with_messages([None, Some("two")]), &mut input)
        .run()
        .unwrap();
    assert_eq!(messages_of(&accepted), [None, Some("two".to_owned())]);
}

#[test]
fn an_edit_within_a_batch_goes_on_with_the_batch() {
    let shot = TestingScreenshot::default();
    let batch = vec![
        Event::EditCommitMessage,
        Event::ToggleAll,
        Event::EditCommitMessage,
        shot.event(),
        Event::QuitAccept,
        Event::EditCommitMessage,
    ];
    let mut batches = vec![batch].into_iter();
    let mut answers = ["second", "third"].into_iter();
    let mut input = Scripted {
        read: move || Ok(batches.next().unwrap()),
        edit: move || Ok(answers.next().unwrap().to_owned()),
        edited: Vec::new(),
    };
    let accepted = Recorder::new(with_messages([Some("first"), None]), &mut input)
        .run()
        .unwrap();
    assert_eq!(input.edited, ["first", "second"]);
    assert_eq!(messages_of(&accepted), [Some("third".to_owned()), None]);
    assert_eq!(
        accepted.files[0].sections[1],
        changed(vec![removed(true, "b\n"), added(false, "c\n")])
    );
    // a screenshot keeps the frame before its batch
    assert!(rows_of(&shot)[2].contains("first"), "{shot}");
}

#[test]
fn a_message_that_is_too_long_ends_the_run() {
    let mut input = TestingInput::new(60, 12, [Event::EditCommitMessage, Event::QuitAccept]);
    input.commit_messages.push_back("x".repeat(1_000_001));
    let ended = Recorder::new(with_messages([Some("one"), None]), &mut input).run();
    assert_eq!(ended.unwrap_err().to_string(), "commit message too long");
}

#[test]
fn an_error_of_the_input_ends_the_run() {
    let mut input = Scripted {
        read: || Err(RecordError::ReadInput("no hands".into())),
        edit: || unreachable!(),
        edited: Vec::new(),
    };
    let ended = Recorder::new(state(vec![mixed_file()]), &mut input).run();
    assert_eq!(
        ended.unwrap_err().to_string(),
        "failed to read user input: no hands"
    );

    let mut input = Scripted {
        read: || Ok(vec![Event::EditCommitMessage]),
        edit: || Err(RecordError::Other("no editor".to_owned())),
        edited: Vec::new(),
    };
    let ended = Recorder::new(with_messages([Some("one"), None]), &mut input).run();
    assert_eq!(ended.unwrap_err().to_string(), "no editor");
}

#[test]
fn a_read_may_return_no_events() {
    let mut count = 0;
    let mut input = Scripted {
        read: || {
            count += 1;
            Ok(if count > 3 {
                vec![Event::QuitAccept]
            } else {
                Vec::new()
            })
        },
        edit: || unreachable!(),
        edited: Vec::new(),
    };
    let given = with_messages([None, None]);
    assert_eq!(
        Recorder::new(given.clone(), &mut input).run().unwrap(),
        given
    );
    assert_eq!(count, 4);
}

#[test]
fn events_behind_the_end_are_left() {
    let shot = TestingScreenshot::default();
    let batches = vec![vec![Event::QuitAccept, shot.event(), Event::QuitCancel]];
    let mut input = Batches::new(SIZE, batches);
    let given = with_messages([None, None]);
    assert_eq!(
        Recorder::new(given.clone(), &mut input).run().unwrap(),
        given
    );
    assert_eq!(shot.to_string(), "<this screenshot was never assigned>");
}

/// Returns which of the screenshots of a batch are taken: one stands behind each of its events.
fn shots_behind(given: RecordState<'_>, reads: Vec<Vec<Event>>, batch: Vec<Event>) -> Vec<bool> {
    let shots: Vec<_> = batch.iter().map(|_| TestingScreenshot::default()).collect();
    let events = batch.into_iter().zip(&shots);
    let batch = events.flat_map(|(event, shot)| [event, shot.event()]);
    let mut reads = reads;
    reads.push(batch.collect());
    let ended = Recorder::new(given, &mut Batches::new(SIZE, reads)).run();
    assert!(
        !matches!(ended, Err(RecordError::Bug(_) | RecordError::Other(_))),
        "{ended:?}"
    );
    let is_taken = |shot: &TestingScreenshot| *shot != TestingScreenshot::default();
    shots.iter().map(is_taken).collect()
}

#[test]
fn screenshots_are_taken_up_to_the_event_that_ends_the_run() {
    let (accept, cancel) = (Event::QuitAccept, Event::QuitCancel);
    let given = || state(vec![mixed_file()]);
    // the first event closes the help
    let batch = vec![accept.clone(), accept.clone(), accept.clone()];
    let taken = shots_behind(given(), vec![vec![Event::Help]], batch);
    assert_eq!(taken, [true, false, false]);
    // a quit dialog is opened, and its button is pressed
    let batch = vec![cancel.clone(), Event::ToggleItem, accept.clone()];
    let taken = shots_behind(given(), Vec::new(), batch);
    assert_eq!(taken, [true, false, false]);
    // the button is pressed by a click where the dialog was drawn before
    let click = |row, column| Event::Click { row, column };
    let opened = vec![vec![cancel]];
    let shot = rows_after_batches(given(), SIZE, opened.clone());
    let row = shot.iter().position(|row| row.contains("(Quit)")).unwrap();
    let column = shot[row].split("(Quit)").next().unwrap().chars().count();
    let batch = vec![click(0, 50), click(row, column + 1), Event::Help];
    let taken = shots_behind(given(), opened, batch);
    assert_eq!(taken, [true, false, false]);
    // an item of a menu accepts, but only behind the batch
    let opened = vec![vec![click(0, 1)]];
    let batch = vec![click(1, 2), Event::ToggleItem, Event::ToggleAllUniform];
    let taken = shots_behind(given(), opened.clone(), batch.clone());
    assert_eq!(taken, [true, true, true]);
    let mut reads = opened;
    reads.push(batch);
    let accepted = Recorder::new(given(), &mut Batches::new(SIZE, reads)).run();
    assert_eq!(accepted.unwrap().files[0].tristate(), Tristate::True);
}

/// Returns whether the session goes on behind each event of `batch`, by the rules of quitting and of the help. Nothing is lost by a quit,
/// so it needs no dialog, and a click on an item of a menu leaves the item's event for later.
fn goes_on_behind(batch: &[Event]) -> Vec<bool> {
    let (mut is_help_open, mut goes_on) = (false, true);
    let behind = batch.iter().map(|event| {
        goes_on &= match event {
            Event::QuitInterrupt => false,
            Event::QuitAccept | Event::QuitCancel => is_help_open,
            _ => true,
        };
        is_help_open = match event {
            Event::Help => !is_help_open,
            Event::QuitAccept | Event::QuitCancel => false,
            _ => is_help_open,
        };
        goes_on
    });
    behind.collect()
}

#[test]
fn an_item_of_a_menu_takes_no_screenshot_away() {
    let click = |row, column| Event::Click { row, column };
    // Confirm and Quit of the open menu
    let events = [
        click(1, 0),
        click(2, 0),
        Event::Help,
        Event::QuitAccept,
        Event::QuitCancel,
        Event::QuitInterrupt,
    ];
    let mut batches: Vec<Vec<Event>> = vec![Vec::new()];
    for _ in 0..3 {
        let longer = batches.iter().flat_map(|batch| {
            let behind = |event: &Event| [batch.as_slice(), std::slice::from_ref(event)].concat();
            events.iter().map(behind)
        });
        batches = longer.collect();
        for batch in &batches {
            let opened = vec![vec![click(0, 0)]];
            let taken = shots_behind(RecordState::default(), opened, batch.clone());
            assert_eq!(taken, goes_on_behind(batch), "{batch:?}");
        }
    }
}

#[test]
fn a_screenshot_parts_no_batch() {
    // the second click acts on the frame before the batch, in which no menu is open
    let shot = TestingScreenshot::default();
    let click = |row, column| Event::Click { row, column };
    let batch = vec![click(0, 1), shot.event(), click(1, 2)];
    let rows = rows_after_batches(state(vec![mixed_file()]), (24, 8), vec![batch]);
    assert_eq!(rows[2..4], ["[Quit (q)]", ""]);
    assert_eq!(rows_of(&shot)[1], "(◐) f                (+)");
}

#[test]
fn no_click_acts_on_what_is_not_seen() {
    let click = |row, column| Event::Click { row, column };
    // the first click opens a menu, whose item Confirm is at the place of the second one
    for message in [None, Some("message")] {
        let reads = vec![vec![click(0, 1), Event::None, click(1, 2)]];
        let given = with_messages([message, None]);
        let ended = Recorder::new(given, &mut Batches::new(SIZE, reads)).run();
        assert!(matches!(ended, Err(RecordError::Cancelled)), "{ended:?}");
    }
    // two clicks on a checkbox select its item, and check it
    let unfold = vec![Event::ExpandAll];
    let given = with_messages([Some("message"), None]);
    let shown = rows_after(given.clone(), SIZE, unfold.clone());
    let row = shown.iter().position(|row| row.contains("- b")).unwrap();
    let twice = vec![click(row, 5), click(row, 5), Event::QuitAccept];
    let reads = vec![unfold, twice];
    let accepted = Recorder::new(given, &mut Batches::new(SIZE, reads)).run();
    assert_eq!(accepted.unwrap().files[0].tristate(), Tristate::True);
}

#[test]
fn the_rest_of_a_batch_follows_its_message() {
    let (edit, accept) = (Event::EditCommitMessage, Event::QuitAccept);
    let batch = vec![
        edit.clone(),
        Event::ToggleAllUniform,
        edit,
        accept,
        Event::ToggleAllUniform,
    ];
    let given = with_messages([Some("message"), None]);
    let accepted = Recorder::new(given, &mut Batches::new(SIZE, vec![batch])).run();
    assert_eq!(accepted.unwrap().files[0].tristate(), Tristate::True);
}

#[test]
fn screenshots_are_taken_up_to_the_event_that_ends_the_run_behind_messages() {
    let (edit, accept) = (Event::EditCommitMessage, Event::QuitAccept);
    let given = || with_messages([Some("message"), None]);
    // the first message is asked for by the first event, and the second one by the third event
    let batch = vec![
        edit.clone(),
        Event::ToggleAllUniform,
        edit.clone(),
        Event::None,
        accept.clone(),
        Event::ToggleAllUniform,
    ];
    let taken = shots_behind(given(), Vec::new(), batch);
    assert_eq!(taken, [true, true, true, true, false, false]);
    // an item of a menu asks for a message behind the batch, and another one accepts behind that
    let click = |row, column| Event::Click { row, column };
    let opened = vec![vec![click(0, 8)]];
    let shown = rows_after_batches(given(), SIZE, opened.clone());
    let item = shown
        .iter()
        .position(|row| row.contains("[Edit message (e)]"));
    let place = click(item.unwrap(), 9);
    let batch = vec![place.clone(), place, Event::Help, Event::Help];
    let taken = shots_behind(given(), opened.clone(), batch.clone());
    assert_eq!(taken, [true, true, true, true]);
    let mut reads = opened;
    reads.extend([batch, vec![accept]]);
    let mut edits = 0;
    let mut input = Scripted {
        read: || Ok(reads.remove(0)),
        edit: || {
            edits += 1;
            Ok(format!("message {edits}"))
        },
        edited: Vec::new(),
    };
    let accepted = Recorder::new(given(), &mut input).run().unwrap();
    assert_eq!(input.edited, ["message", "message 1"]);
    assert_eq!(messages_of(&accepted), [Some("message 2".to_owned()), None]);
}

/// An input of one batch, whose editor fails.
struct NoEditor(Vec<Event>);

impl RecordInput for NoEditor {
    fn terminal_kind(&self) -> TerminalKind {
        let (width, height) = SIZE;
        TerminalKind::Testing { width, height }
    }

    fn next_events(&mut self) -> Result<Vec<Event>, RecordError> {
        Ok(std::mem::take(&mut self.0))
    }

    fn edit_commit_message(&mut self, _message: &str) -> Result<String, RecordError> {
        Err(RecordError::Other("no editor".to_owned()))
    }
}

#[test]
fn screenshots_are_taken_up_to_the_event_that_asks_for_a_message() {
    let shots = [TestingScreenshot::default(), TestingScreenshot::default()];
    let batch = vec![
        Event::Click { row: 0, column: 1 },
        shots[0].event(),
        Event::EditCommitMessage,
        shots[1].event(),
    ];
    let given = with_messages([Some("message"), None]);
    let ended = Recorder::new(given, &mut NoEditor(batch)).run();
    assert!(matches!(ended, Err(RecordError::Other(words)) if words == "no editor"));
    let is_taken = |shot: &TestingScreenshot| *shot != TestingScreenshot::default();
    assert_eq!(shots.map(|shot| is_taken(&shot)), [true, false]);
}

#[test]
fn a_quit_is_confirmed_by_an_interrupt() {
    let given = with_messages([Some("words"), None]);
    let events = vec![
        Event::QuitInterrupt,
        Event::ToggleAll,
        Event::QuitAccept,
        Event::QuitInterrupt,
    ];
    let ended = run(given, SIZE, events);
    assert!(matches!(ended, Err(RecordError::Cancelled)), "{ended:?}");
}

#[test]
fn screenshots_share_what_they_keep() {
    let shot = TestingScreenshot::default();
    let same = shot.clone();
    assert_eq!(shot.event(), Event::TakeScreenshot(same.clone()));
    rows_after_batches(state(vec![mixed_file()]), (24, 3), vec![vec![shot.event()]]);
    assert_eq!(same, shot);
    assert_ne!(same, TestingScreenshot::default());
    assert_eq!(
        same.to_string(),
        "\"[File] [Edit] [Select] [\"\n\"(◐) f                (+)\"\n\"                        \"\n"
    );
}

#[test]
fn a_screen_without_columns_or_rows_runs() {
    for size in [(0, 0), (0, 5), (5, 0), (1, 1)] {
        let shot = TestingScreenshot::default();
        let batches = vec![vec![shot.event()], vec![Event::Redraw, shot.event()]];
        rows_after_batches(state(vec![mixed_file()]), size, batches);
        let rows = if size.0 == 0 { 0 } else { size.1 };
        assert_eq!(shot.to_string().lines().count(), rows);
    }
}

#[test]
fn a_screen_is_drawn_up_to_its_limit() {
    let shot = TestingScreenshot::default();
    let size = (70_000, 2);
    rows_after_batches(state(vec![mixed_file()]), size, vec![vec![shot.event()]]);
    let widths: Vec<usize> = shot
        .to_string()
        .lines()
        .map(|row| row.chars().count())
        .collect();
    assert_eq!(widths, [1002, 1002]);
}

#[test]
fn any_text_is_a_line_a_path_and_a_message() {
    let mut seed = 1_u64;
    for _ in 0..300 {
        let mut text = String::new();
        for _ in 0..20 {
            seed = seed
                .wrapping_mul(6_364_136_223_846_793_005)
                .wrapping_add(1_442_695_040_888_963_407);
            let limit = [0x80, 0x800, 0x11_0000][(seed >> 60) as usize % 3];
            text.extend(char::from_u32((seed >> 33) as u32 % limit));
        }
        let given = RecordState {
            commits: vec![
                Commit {
                    message: Some(text.clone()),
                },
                Commit::default(),
            ],
            ..state(vec![file(&text, vec![changed(vec![added(true, &text)])])])
        };
        let shot = TestingScreenshot::default();
        let events = vec![Event::ExpandAll, shot.event(), Event::QuitAccept];
        assert_eq!(run(given.clone(), SIZE, events).unwrap(), given);
        assert_eq!(shot.to_string().lines().count(), SIZE.1);
    }
}

#[test]
fn errors_have_texts_and_sources() {
    let cause = || Box::new(io::Error::new(io::ErrorKind::Other, "the cause"));
    let texts = [
        (
            RecordError::SetUpTerminal(cause()),
            "failed to set up terminal: the cause",
        ),
        (
            RecordError::CleanUpTerminal(cause()),
            "failed to clean up terminal: the cause",
        ),
        (
            RecordError::RenderFrame(cause()),
            "failed to render new frame: the cause",
        ),
        (
            RecordError::ReadInput(cause()),
            "failed to read user input: the cause",
        ),
        (
            RecordError::WriteFile(cause()),
            "failed to wrote file: the cause",
        ),
    ];
    for (error, text) in texts {
        assert_eq!(error.to_string(), text);
        assert_eq!(error.source().unwrap().to_string(), "the cause");
        let error: Box<dyn Error + Send + Sync> = error.into();
        assert!(error.source().unwrap().is::<io::Error>());
    }
    let plain = [
        (RecordError::Cancelled, "cancelled by user"),
        (RecordError::Other("any".to_owned()), "any"),
        (RecordError::Bug("one".to_owned()), "bug: one"),
    ];
    for (error, text) in plain {
        assert_eq!(error.to_string(), text);
        assert!(error.source().is_none());
    }
}

thread_local! {
    static SEEN: RefCell<Vec<String>> = const { RefCell::new(Vec::new()) };
}

/// A tool may wrap an input: here it counts what is read.
#[test]
fn an_input_can_be_wrapped() {
    struct Counting<Inner>(Inner);
    impl<Inner: RecordInput> RecordInput for Counting<Inner> {
        fn terminal_kind(&self) -> TerminalKind {
            self.0.terminal_kind()
        }
        fn next_events(&mut self) -> Result<Vec<Event>, RecordError> {
            let events = self.0.next_events()?;
            SEEN.with(|seen| seen.borrow_mut().push(format!("{events:?}")));
            Ok(events)
        }
        fn edit_commit_message(&mut self, message: &str) -> Result<String, RecordError> {
            self.0.edit_commit_message(message)
        }
    }
    let mut input = Counting(TestingInput::new(
        60,
        12,
        [Event::FocusInner, Event::QuitAccept],
    ));
    Recorder::new(state(vec![mixed_file()]), &mut input)
        .run()
        .unwrap();
    SEEN.with(|seen| assert_eq!(*seen.borrow(), ["[FocusInner]", "[QuitAccept]"]));
}
