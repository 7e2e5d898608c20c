//! The worked examples of the rules, as runs of the crate. Rows of a screen are written without the blanks at their ends.
mod common;

use common::*;
use scm_record::helpers::make_binary_description;
use scm_record::{
    Commit, Event, File, FileMode, RecordError, RecordState, SelectedChanges, SelectedContents,
    TestingScreenshot,
};
use std::borrow::Cow;

const WIDE: (usize, usize) = (80, 24);
const SMALL: (usize, usize) = (24, 8);

fn folded_file() -> RecordState<'static> {
    state(vec![file("foo/bar", Vec::new())])
}

fn one_checked_line() -> RecordState<'static> {
    state(vec![file(
        "foo/bar",
        vec![changed(vec![added(true, "c\n")])],
    )])
}

fn text(side: &SelectedChanges<'_>) -> String {
    match &side.contents {
        SelectedContents::Text { contents } => contents.clone(),
        other => panic!("no text: {other:?}"),
    }
}

/// The screen of `mixed_file` with its section selected, of 24 columns and 8 rows.
const MIXED: [&str; 8] = [
    "[File] [Edit] [Select] [",
    "[◐] f                [-]",
    "        1 a⏎",
    "  (◐) Section 1/1    (-)",
    "    [ ] - b⏎",
    "    [●] + c⏎",
    "",
    "",
];

#[test]
fn an_empty_state_is_cancelled() {
    let ended = run(RecordState::default(), WIDE, vec![Event::QuitCancel]);
    assert!(matches!(ended, Err(RecordError::Cancelled)), "{ended:?}");
}

#[test]
fn an_accepted_state_comes_back() {
    let given = RecordState {
        commits: vec![Commit::default(), Commit::default()],
        ..folded_file()
    };
    let accepted = run(given.clone(), WIDE, vec![Event::QuitAccept]);
    assert_eq!(accepted.unwrap(), given);
}

#[test]
fn a_folded_file_is_a_row() {
    let rows = rows_after(folded_file(), (20, 5), Vec::new());
    assert_eq!(
        rows,
        ["[File] [Edit] [Selec", "( ) foo/bar      (+)", "", "", ""]
    );
}

#[test]
fn moving_in_unfolds_and_selects_the_section() {
    let rows = rows_after(state(vec![mixed_file()]), SMALL, vec![Event::FocusInner]);
    assert_eq!(rows, MIXED);
}

#[test]
fn a_header_is_pinned_when_the_document_scrolls() {
    let events = vec![Event::FocusInner, Event::ScrollDown, Event::ScrollDown];
    let rows = rows_after(state(vec![mixed_file()]), SMALL, events);
    assert_eq!(
        rows[1..4],
        ["[◐] f                [-]", "    [ ] - b⏎", "    [●] + c⏎"]
    );
    assert_eq!(rows[4..], [""; 4]);
}

#[test]
fn a_message_has_a_button_that_is_cut_with_an_ellipsis() {
    let given = RecordState {
        commits: vec![Commit {
            message: Some("hello".to_owned()),
        }],
        ..folded_file()
    };
    let rows = rows_after(given, (10, 2), vec![Event::ScrollDown]);
    assert_eq!(rows, ["[File] [Ed", "[Edit mes…"]);
}

#[test]
fn no_symbol_of_a_path_is_cut_in_half() {
    for (width, header) in [
        (13, "( ) 日本語(+)"),
        (12, "( ) 日本…(+)"),
        (11, "( ) 日 …(+)"),
    ] {
        let rows = rows_after(
            state(vec![file("日本語", Vec::new())]),
            (width, 3),
            Vec::new(),
        );
        assert_eq!(rows[1], header);
    }
}

#[test]
fn the_scroll_ends_at_the_extent() {
    let header_after = |count| {
        let rows = rows_after(folded_file(), WIDE, vec![Event::ScrollDown; count]);
        !rows[1].is_empty()
    };
    assert_eq!([0, 1, 2, 3].map(header_after), [true, false, true, false]);
}

#[test]
fn checking_a_line_of_a_new_file_creates_it() {
    let new_file = |is_checked| File {
        file_mode: FileMode::Absent,
        ..file(
            "new",
            vec![
                changed(vec![added(is_checked, "n\n")]),
                mode(is_checked, FileMode::FILE_DEFAULT),
            ],
        )
    };
    let inwards = Event::FocusInner;
    let events = vec![
        inwards.clone(),
        inwards,
        Event::ToggleItem,
        Event::QuitAccept,
    ];
    let accepted = run(state(vec![new_file(false)]), WIDE, events).unwrap();
    assert_eq!(accepted.files, [new_file(true)]);
}

#[test]
fn a_file_is_split_by_its_marks() {
    let lines = vec![
        added(true, "b\n"),
        removed(false, "c\n"),
        added(false, "d\n"),
        removed(true, "e\n"),
    ];
    let file = file("f", vec![context(&["a\n"]), changed(lines)]);
    let (selected, unselected) = file.get_selected_contents();
    assert_eq!(
        (text(&selected), text(&unselected)),
        ("a\nb\nc\n".into(), "a\nd\ne\n".into())
    );
    assert_eq!(selected.file_mode, FileMode::FILE_DEFAULT);
    assert_eq!(unselected.file_mode, FileMode::FILE_DEFAULT);
}

#[test]
fn a_removed_text_is_empty_and_a_deleted_file_unchanged() {
    let lines = || changed(vec![removed(true, "x\n")]);
    let emptied = file("f", vec![lines()]);
    let (selected, unselected) = emptied.get_selected_contents();
    assert_eq!(
        (text(&selected), text(&unselected)),
        (String::new(), "x\n".into())
    );

    let deleted = file("f", vec![lines(), mode(true, FileMode::Absent)]);
    let (selected, unselected) = deleted.get_selected_contents();
    assert_eq!(selected.file_mode, FileMode::Absent);
    assert_eq!(selected.contents, SelectedContents::Unchanged);
    assert_eq!(unselected.file_mode, FileMode::FILE_DEFAULT);
    assert_eq!(text(&unselected), "x\n");
}

#[test]
fn a_binary_is_on_one_side() {
    let file = file("f", vec![binary(true, Some("a"), None), context(&["z\n"])]);
    let (selected, unselected) = file.get_selected_contents();
    let wanted = SelectedContents::Binary {
        old_description: Some(Cow::Borrowed("a")),
        new_description: None,
    };
    assert_eq!(selected.contents, wanted);
    assert_eq!(text(&unselected), "z\n");
}

#[test]
fn quitting_asks_if_something_is_checked() {
    for scrolls in [0, 1] {
        let scrolled = vec![Event::ScrollDown; scrolls];
        let mut events = [scrolled.clone(), vec![Event::QuitCancel]].concat();
        let rows = rows_after(one_checked_line(), WIDE, events.clone());
        assert_eq!(columns(&rows[9], 10, 16), "┌Quit─");
        assert_eq!(columns(&rows[9], 69, 70), "┐");
        assert_eq!(
            columns(&rows[10], 10, 70),
            "│You have changes to 1 file. Are you sure you want to quit?│"
        );
        assert_eq!(columns(&rows[12], 53, 62), "[Go Back]");
        assert_eq!(columns(&rows[12], 63, 69), "(Quit)");
        let go_back = Event::Click {
            row: 12,
            column: 55,
        };
        events.extend([go_back, Event::QuitAccept]);
        let accepted = run(one_checked_line(), WIDE, events).unwrap();
        assert_eq!(accepted.files, one_checked_line().files);
    }
}

#[test]
fn a_redraw_clears_the_screen_for_its_batch() {
    let (cleared, drawn) = (TestingScreenshot::default(), TestingScreenshot::default());
    let batches = vec![vec![Event::Redraw, cleared.event()], vec![drawn.event()]];
    rows_after_batches(folded_file(), (20, 5), batches);
    assert_eq!(rows_of(&cleared), [""; 5]);
    assert_eq!(
        rows_of(&drawn),
        ["[File] [Edit] [Selec", "( ) foo/bar      (+)", "", "", ""]
    );
}

#[test]
fn a_menu_opens_and_closes_by_clicks() {
    let click = |row, column| Event::Click { row, column };
    let rows = rows_after(folded_file(), WIDE, vec![click(0, 1)]);
    assert_eq!(rows[1], format!("[Confirm (c)]{}(+)", " ".repeat(64)));
    assert_eq!(rows[2], "[Quit (q)]");
    let rows = rows_after(folded_file(), WIDE, vec![click(0, 1), click(1, 30)]);
    assert_eq!(rows[1], format!("( ) foo/bar{}(+)", " ".repeat(66)));
    assert_eq!(rows[2], "");
    let ended = run(folded_file(), WIDE, vec![click(0, 1), click(2, 3)]);
    assert!(matches!(ended, Err(RecordError::Cancelled)), "{ended:?}");
}

#[test]
fn three_commits_are_refused() {
    let given = RecordState {
        commits: vec![Commit::default(); 3],
        ..folded_file()
    };
    let ended = run(given, WIDE, vec![Event::None, Event::QuitAccept]);
    assert_eq!(
        ended.unwrap_err().to_string(),
        "state not accepted: it has 3 commits, and two at most are shown"
    );
}

#[test]
fn moving_in_from_a_file_without_sections_goes_to_the_next_file() {
    let files = vec![
        file("a", Vec::new()),
        file("b", vec![changed(vec![added(false, "x\n")])]),
    ];
    let rows = rows_after(state(files), SMALL, vec![Event::FocusInner]);
    assert_eq!(
        rows[1..4],
        [
            "[ ] a                [+]",
            "[ ] b                [-]",
            "  ( ) Section 1/1    (-)",
        ]
    );
}

#[test]
fn the_help_is_a_dialog() {
    let rows = rows_after(folded_file(), WIDE, vec![Event::Help]);
    assert_eq!(rows[2], format!("┌Help{}┐", "─".repeat(74)));
    assert_eq!(rows[20], format!("└{}(Close)┘", "─".repeat(71)));
    assert_eq!(rows[21], "");
}

#[test]
fn a_dialog_without_room_is_cut() {
    let rows = rows_after(one_checked_line(), (10, 2), vec![Event::QuitCancel]);
    assert_eq!(rows, ["┌Quit────┐", "k]─(Quit)┘"]);
}

#[test]
fn a_click_goes_by_the_scroll_of_its_time() {
    let click = Event::Click { row: 3, column: 10 };
    let batches = vec![vec![Event::FocusInner], vec![Event::ScrollDown, click]];
    let rows = rows_after_batches(state(vec![mixed_file()]), SMALL, batches);
    assert_eq!(
        rows[1..5],
        [
            "[◐] f                [-]",
            "  [◐] Section 1/1    [-]",
            "    ( ) - b⏎",
            "    [●] + c⏎",
        ]
    );
}

#[test]
fn clicks_of_a_batch_act_on_the_frame_before_it() {
    let click = Event::Click { row: 0, column: 0 };
    let batches = vec![
        vec![Event::FocusInner],
        vec![Event::FocusInner],
        vec![OUTWARDS],
        vec![Event::ScrollDown],
        vec![Event::ScrollDown],
        vec![Event::ScrollUp, click.clone(), click],
    ];
    let rows = rows_after_batches(state(vec![mixed_file()]), SMALL, batches);
    assert_eq!(
        rows[1..3],
        ["(◐) f                (-)", "  [◐] Section 1/1    [-]"]
    );
}

#[test]
fn the_screen_follows_the_selection() {
    let texts: Vec<String> = (0..10).map(|number| format!("{number}\n")).collect();
    let lines = texts.iter().map(|text| added(false, text)).collect();
    let mut events = vec![Event::FocusInner; 2];
    events.extend(vec![Event::FocusNext; 5]);
    let rows = rows_after(state(vec![file("f", vec![changed(lines)])]), SMALL, events);
    assert_eq!(
        rows[1..],
        [
            "[ ] f                [-]",
            "    [ ] + 0⏎",
            "    [ ] + 1⏎",
            "    [ ] + 2⏎",
            "    [ ] + 3⏎",
            "    [ ] + 4⏎",
            "    ( ) + 5⏎",
        ]
    );
}

/// A file with seven lines of context between two changes.
fn file_with_context() -> File<'static> {
    let between = ["a\n", "b\n", "c\n", "d\n", "e\n", "f\n", "g\n"];
    let sections = vec![
        changed(vec![added(false, "x\n")]),
        context(&between),
        changed(vec![removed(false, "y\n")]),
    ];
    file("f", sections)
}

#[test]
fn long_context_has_a_gap() {
    let given = state(vec![file_with_context()]);
    let rows = rows_after(given, (24, 14), vec![Event::FocusInner]);
    assert_eq!(
        rows[2..13],
        [
            "  ( ) Section 1/2    (-)",
            "    [ ] + x⏎",
            "        1 a⏎",
            "        2 b⏎",
            "        3 c⏎",
            "        ⋮",
            "        5 e⏎",
            "        6 f⏎",
            "        7 g⏎",
            "  [ ] Section 2/2    [-]",
            "    [ ] - y⏎",
        ]
    );
}

#[test]
fn context_can_be_selected_and_has_no_mark() {
    let click = Event::Click { row: 4, column: 0 };
    let mut events = vec![Event::FocusInner, click, Event::ToggleItemAndAdvance];
    let rows = rows_after(state(vec![file_with_context()]), (24, 14), events.clone());
    assert!(
        rows.iter()
            .all(|row| !row.contains('(') && !row.contains('●')),
        "{rows:?}"
    );
    events.push(Event::FocusNext);
    let rows = rows_after(state(vec![file_with_context()]), (24, 14), events);
    assert_eq!(rows[1], "( ) f                (-)");
}

#[test]
fn no_files_are_told() {
    let rows = rows_after(RecordState::default(), WIDE, Vec::new());
    assert_eq!(
        rows[6],
        format!("{}There are no changes to view.", " ".repeat(20))
    );
}

#[test]
fn a_click_off_the_screen_does_nothing() {
    let before = rows_after(folded_file(), WIDE, Vec::new());
    for (row, column) in [(24, 0), (0, 80), (65_536, 0), (usize::MAX, usize::MAX)] {
        let click = Event::Click { row, column };
        assert_eq!(rows_after(folded_file(), WIDE, vec![click]), before);
    }
}

#[test]
fn small_calls() {
    assert_eq!(make_binary_description("abc123", 42), "abc123 (42 bytes)");
    assert!(FileMode::try_from(-1_i32).is_err());
    assert_eq!(
        FileMode::try_from(0o100_755_i32),
        Ok(FileMode::Unix(0o100_755))
    );
    assert_eq!(
        FileMode::try_from(0o100_755_u32),
        Ok(FileMode::from(0o100_755))
    );
    assert_eq!(FileMode::FILE_DEFAULT.to_string(), "100644");
    assert_eq!(FileMode::Absent.to_string(), "<absent>");
}
