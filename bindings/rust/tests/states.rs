//! Marks, sides, limits, and what of a state comes back.
mod common;

use common::*;
use scm_record::session::{Key, LineKind, SectionKind, Session};
use scm_record::{
    ChangeType, Commit, Event, File, FileMode, RecordState, Section, SelectedContents, Tristate,
};
use std::borrow::Cow;
use std::ffi::OsStr;
use std::os::unix::ffi::OsStrExt;
use std::path::Path;

/// Files of each kind of section, with no, some and all items checked.
fn files() -> Vec<File<'static>> {
    let one = |section| file("one", vec![section]);
    vec![
        file("empty", Vec::new()),
        one(context(&["a\n"])),
        one(changed(Vec::new())),
        one(changed(vec![added(false, "a\n"), removed(false, "b\n")])),
        one(changed(vec![added(true, "a\n"), removed(false, "b\n")])),
        one(changed(vec![added(true, "a\n"), removed(true, "b\n")])),
        one(mode(false, FileMode::Unix(0o100_755))),
        one(mode(true, FileMode::Absent)),
        one(binary(false, Some("old"), None)),
        one(binary(true, None, Some("new"))),
        file(
            "both",
            vec![
                changed(vec![added(true, "a\n")]),
                mode(false, FileMode::Absent),
            ],
        ),
        mixed_file(),
    ]
}

/// Returns the marks of the file and its sections, as the library has them.
fn told_marks(file: &File<'_>) -> (Tristate, Vec<Option<Tristate>>) {
    let mut session = Session::new(false).unwrap();
    session.add_file("f", None, file.file_mode).unwrap();
    for section in &file.sections {
        match section {
            Section::Unchanged { lines } => {
                session.add_section(SectionKind::Context).unwrap();
                lines
                    .iter()
                    .for_each(|it| session.add_line(LineKind::Context, it).unwrap());
            }
            Section::Changed { lines } => {
                session.add_section(SectionKind::Changed).unwrap();
                for line in lines {
                    let (change_type, is_checked) = (line.change_type, line.is_checked);
                    let kind = LineKind::Changed {
                        change_type,
                        is_checked,
                    };
                    session.add_line(kind, &line.line).unwrap();
                }
            }
            Section::FileMode { is_checked, mode } => session.add_mode(*mode, *is_checked).unwrap(),
            Section::Binary { is_checked, .. } => {
                session.add_binary(Some("old"), None, *is_checked).unwrap();
            }
        }
    }
    let key = |section| Key {
        file: Some(0),
        section,
        ..Key::default()
    };
    let sections = 0..file.sections.len();
    let marks = sections.map(|index| session.mark(key(Some(index))).ok());
    (session.mark(key(None)).unwrap(), marks.collect())
}

#[test]
fn marks_are_those_of_the_library() {
    for file in files() {
        let (of_file, of_sections) = told_marks(&file);
        assert_eq!(file.tristate(), of_file, "{file:?}");
        for (section, mark) in file.sections.iter().zip(of_sections) {
            assert_eq!(
                section.tristate(),
                mark.unwrap_or(Tristate::False),
                "{section:?}"
            );
        }
    }
}

#[test]
fn marks_are_set_and_inverted() {
    for file in files() {
        let has_items = file.sections.iter().any(|it| {
            it.is_editable() && !matches!(it, Section::Changed { lines } if lines.is_empty())
        });
        for is_checked in [false, true] {
            let mut set = file.clone();
            set.set_checked(is_checked);
            assert_eq!(set.tristate(), Tristate::from(is_checked && has_items));
            set.toggle_all();
            assert_eq!(set.tristate(), Tristate::from(!is_checked && has_items));
        }
        let mut twice = file.clone();
        twice.toggle_all();
        assert_eq!(twice == file, !has_items);
        twice.toggle_all();
        assert_eq!(twice, file);
    }
}

#[test]
fn context_alone_is_not_editable() {
    let editable: Vec<bool> = files()[11]
        .sections
        .iter()
        .map(Section::is_editable)
        .collect();
    assert_eq!(editable, [false, true]);
    assert!(mode(false, FileMode::Absent).is_editable());
    assert!(binary(false, None, None).is_editable());
}

#[test]
fn marks_and_messages_come_back_and_nothing_else_changes() {
    let given = RecordState {
        is_read_only: false,
        commits: vec![
            Commit {
                message: Some("first".to_owned()),
            },
            Commit::default(),
        ],
        files: files(),
    };
    let accepted = run(
        given.clone(),
        (80, 24),
        vec![Event::ToggleAll, Event::QuitAccept],
    )
    .unwrap();
    // a file whose deletion would be checked, and not all of its lines, has its deletion unchecked
    let mut wanted = given;
    wanted.files.iter_mut().for_each(File::toggle_all);
    if let Section::FileMode { is_checked, .. } = &mut wanted.files[10].sections[1] {
        *is_checked = false;
    }
    assert_eq!(accepted, wanted);
}

#[test]
fn a_read_only_state_keeps_its_marks() {
    let given = RecordState {
        is_read_only: true,
        ..state(files())
    };
    let accepted = run(
        given.clone(),
        (80, 24),
        vec![Event::ToggleAll, Event::QuitAccept],
    )
    .unwrap();
    assert_eq!(accepted.files, given.files);
}

#[test]
fn paths_that_are_no_utf_8_come_back() {
    let path = |bytes: &'static [u8]| Cow::Borrowed(Path::new(OsStr::from_bytes(bytes)));
    let given = state(vec![File {
        old_path: Some(path(b"old\xff")),
        path: path(b"\xf0\x90new\xfe"),
        ..mixed_file()
    }]);
    let rows = rows_after(given.clone(), (40, 3), Vec::new());
    let blanks = " ".repeat(20);
    let header = format!("(◐) old\u{fffd} => \u{fffd}new\u{fffd}{blanks}(+)");
    assert_eq!(rows[1], header);
    let accepted = run(given.clone(), (40, 3), vec![Event::QuitAccept]).unwrap();
    assert_eq!(accepted.files, given.files);
}

#[test]
fn texts_without_bytes_are_shown_as_they_are() {
    let quoted = "\"\\\u{8}\t日本\n";
    let sections = |description| {
        vec![
            context(&[quoted]),
            changed(vec![removed(false, quoted), added(true, "")]),
            binary(true, description, Some("new")),
            mode(false, FileMode::Absent),
        ]
    };
    let given = |old_path, description| RecordState {
        is_read_only: true,
        commits: vec![Commit {
            message: Some(quoted.to_owned()),
        }],
        files: vec![File {
            old_path,
            ..file("f", sections(description))
        }],
    };
    let empty_path = || Some(Cow::Borrowed(Path::new("")));
    let events = || vec![Event::ExpandAll];
    let plain = rows_after(given(None, None), (60, 16), events());
    let with_path = rows_after(given(empty_path(), None), (60, 16), events());
    let with_both = rows_after(given(empty_path(), Some("")), (60, 16), events());
    assert_eq!(with_path[4], plain[4].replacen("f    ", " => f", 1));
    let is_binary = |row: &&String| row.contains("binary contents");
    let binary_of = |rows: &[String]| rows.iter().find(is_binary).cloned().unwrap_or_default();
    assert!(binary_of(&with_path).contains("(binary contents: new)"));
    assert!(binary_of(&with_both).contains("(binary contents:  -> new)"));
    let others = |rows: Vec<String>| rows.into_iter().filter(|row| !is_binary(&row)).skip(5);
    assert!(others(with_both).eq(others(plain)));
    let given = given(empty_path(), Some(""));
    let accepted = run(given.clone(), (60, 16), vec![Event::QuitAccept]).unwrap();
    assert_eq!(accepted.files, given.files);
}

#[test]
fn lines_are_what_they_are() {
    let texts = [
        "",
        "a\nb",
        "\n",
        "no end",
        "\r\n",
        "\u{0}\u{1b}[2J",
        "日本\u{301}語\n",
    ];
    let lines = texts.iter().map(|text| added(true, text)).collect();
    let file = file("f", vec![context(&["", "x\ny"]), changed(lines)]);
    let (selected, unselected) = file.get_selected_contents();
    let contents = format!("x\ny{}", texts.concat());
    assert_eq!(selected.contents, SelectedContents::Text { contents });
    let contents = "x\ny".to_owned();
    assert_eq!(unselected.contents, SelectedContents::Text { contents });
    let given = state(vec![file]);
    let accepted = run(given.clone(), (80, 24), vec![Event::QuitAccept]).unwrap();
    assert_eq!(accepted.files, given.files);
}

#[test]
fn the_last_binary_is_the_one_of_a_side() {
    let file = file(
        "f",
        vec![
            binary(true, Some("a"), None),
            binary(false, None, Some("b")),
        ],
    );
    let (selected, unselected) = file.get_selected_contents();
    assert_eq!(selected.contents, SelectedContents::Unchanged);
    let wanted = SelectedContents::Binary {
        old_description: None,
        new_description: Some(Cow::Borrowed("b")),
    };
    assert_eq!(unselected.contents, wanted);
}

/// Returns the error of a run over `given`, which may not ask for an event.
fn refusal(given: RecordState<'_>) -> String {
    let mut input = scm_record::helpers::TestingInput::new(
        80,
        24,
        std::iter::from_fn(|| -> Option<Event> { panic!("an event is asked for") }),
    );
    let ended = scm_record::Recorder::new(given, &mut input).run();
    ended.unwrap_err().to_string()
}

#[test]
fn a_state_past_a_limit_is_refused_with_the_place() {
    let long = "x".repeat(1_000_001);
    let of_section = |section| state(vec![mixed_file(), file("f", vec![section])]);
    let cases = [
        (state(vec![file(&long, Vec::new())]), "files[0].path"),
        (
            of_section(changed(vec![added(false, &long)])),
            "files[1].sections[0].lines[0]",
        ),
        (
            of_section(context(&["a\n", &long])),
            "files[1].sections[0].lines[1]",
        ),
        (
            of_section(binary(false, None, Some(&long))),
            "a description of files[1].sections[0]",
        ),
        (
            RecordState {
                commits: vec![Commit {
                    message: Some(long.clone()),
                }],
                ..RecordState::default()
            },
            "the message of commits[0]",
        ),
    ];
    for (given, name) in cases {
        let wanted = format!("state not accepted: {name} has more than 1,000,000 bytes");
        assert_eq!(refusal(given), wanted);
    }
}

#[test]
fn any_number_is_a_mode() {
    let greatest = FileMode::Unix(usize::MAX);
    for (own, new) in [
        (greatest, FileMode::Absent),
        (FileMode::Absent, greatest),
        (greatest, FileMode::Unix(0)),
        (FileMode::Unix(0), greatest),
        (greatest, greatest),
    ] {
        for is_checked in [false, true] {
            let sections = vec![mode(is_checked, new), changed(vec![added(true, "a\n")])];
            let file = File {
                file_mode: own,
                ..file("f", sections)
            };
            let (selected, unselected) = file.get_selected_contents();
            let wanted = if is_checked { (new, own) } else { (own, new) };
            assert_eq!((selected.file_mode, unselected.file_mode), wanted);
            let given = state(vec![file]);
            let accepted = run(given.clone(), (80, 24), vec![Event::QuitAccept]);
            assert_eq!(accepted.unwrap().files, given.files);
        }
    }
    let changed_mode = state(vec![file("f", vec![mode(false, greatest)])]);
    let rows = rows_after(changed_mode, (80, 24), vec![Event::ExpandAll]);
    assert!(rows[2].contains("1777777777777777777777"), "{rows:?}");
}

#[test]
fn a_text_at_the_limit_is_accepted() {
    let long = "x".repeat(1_000_000);
    let given = state(vec![file("f", vec![changed(vec![added(true, &long)])])]);
    let accepted = run(given.clone(), (80, 24), vec![Event::QuitAccept]).unwrap();
    assert_eq!(accepted.files, given.files);
}

#[test]
#[should_panic(
    expected = "state not accepted: the file.sections[0].lines[0] has more than 1,000,000 bytes"
)]
fn a_file_past_a_limit_is_not_split() {
    let long = "x".repeat(1_000_001);
    let _ = file("f", vec![changed(vec![added(true, &long)])]).get_selected_contents();
}

#[test]
fn values_have_the_traits_of_the_crate() {
    assert!(Tristate::False < Tristate::Partial && Tristate::Partial < Tristate::True);
    assert!(ChangeType::Added < ChangeType::Removed);
    assert!(FileMode::Unix(7) < FileMode::Absent);
    assert_eq!(RecordState::default().commits, []);
}
