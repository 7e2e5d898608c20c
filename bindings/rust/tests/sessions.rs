//! Sessions that a program drives itself.
use scm_record::session::{
    version, Colour, Dialog, End, Error, Folds, Key, LineKind, Owner, SectionKind, Session, Side,
    SideContents, Stage, Theme, Version,
};
use scm_record::{ChangeType, Event, FileMode, Tristate};

const MODE: FileMode = FileMode::FILE_DEFAULT;
const ADDED: LineKind = LineKind::Changed {
    change_type: ChangeType::Added,
    is_checked: false,
};

fn begun(words: &[&str]) -> Session {
    let mut session = Session::new(false).unwrap();
    session.begin(80, 24).unwrap();
    words.iter().for_each(|word| session.press(word).unwrap());
    session
}

fn key(section: Option<usize>, line: Option<usize>) -> Key {
    Key {
        commit: None,
        file: Some(0),
        section,
        line,
    }
}

#[test]
fn a_session_waits_until_it_ends() {
    let mut session = begun(&["none", "none"]);
    assert_eq!((session.stage(), session.end()), (Stage::Waiting, None));
    session.press("q").unwrap();
    assert_eq!(
        (session.stage(), session.end()),
        (Stage::Ended, Some(End::Cancelled))
    );
    assert_eq!(session.text().unwrap(), "cancelled by user");
    assert_eq!(session.press("none"), Err(Error::NotNow));
}

#[test]
fn a_dialog_is_told() {
    let mut session = begun(&["none"]);
    assert_eq!(session.dialog(), None);
    session.press("?").unwrap();
    assert_eq!(session.dialog(), Some(Dialog::Help));
    session.press("?").unwrap();
    assert_eq!(session.dialog(), None);
    session.press("q").unwrap();
    assert_eq!((session.stage(), session.dialog()), (Stage::Ended, None));
}

#[test]
fn a_batch_has_one_frame() {
    let mut session = Session::new(false).unwrap();
    session.add_commit(Some("message")).unwrap();
    session.add_file("f", None, MODE).unwrap();
    session.add_lines(ADDED, "a\n").unwrap();
    assert_eq!(session.press_all("j"), Err(Error::NotNow));
    session.begin(80, 24).unwrap();
    assert_eq!(session.press_all("j nothing"), Err(Error::NoWord));
    session.press_all("").unwrap();
    session.press_all("  shift-F  j j ").unwrap();
    assert_eq!(session.selected().unwrap(), {
        let commit = Some(0);
        let line = key(Some(0), Some(0));
        Key { commit, ..line }
    });
    session.press_all("j e click:0:1 e space c j").unwrap();
    assert_eq!(session.stage(), Stage::Editing);
    session.answer("another").unwrap();
    assert_eq!(session.text().unwrap(), "another");
    assert_eq!(session.press_all("c"), Err(Error::NotNow));
    session.answer("a third").unwrap();
    assert_eq!(session.end(), Some(End::Accepted));
    assert_eq!(session.message(0).unwrap(), "a third");
}

#[test]
fn a_batch_counts_what_it_handles() {
    let mut session = Session::new(false).unwrap();
    session.add_commit(Some("message")).unwrap();
    session.add_file("f", None, MODE).unwrap();
    session.add_lines(ADDED, "a\n").unwrap();
    assert_eq!(session.press_and_count("j"), Err(Error::NotNow));
    session.begin(80, 24).unwrap();
    assert_eq!(session.press_and_count("j nothing"), Err(Error::NoWord));
    assert_eq!(session.press_and_count(""), Ok(0));
    assert_eq!(session.press_and_count("  j none k "), Ok(3));
    assert_eq!(session.answer_and_count("another"), Err(Error::NotNow));
    assert_eq!(session.press_and_count("j e j e c j"), Ok(2));
    assert_eq!(session.press_and_count("j"), Err(Error::NotNow));
    assert_eq!(session.answer_and_count("another"), Ok(2));
    assert_eq!(session.text().unwrap(), "another");
    assert_eq!(session.answer_and_count("a third"), Ok(1));
    assert_eq!(session.end(), Some(End::Accepted));
    // a layer counts nothing
    let mut layered = Session::new(false).unwrap();
    layered.add_file("f", None, MODE).unwrap();
    layered.begin_layer(80, 24).unwrap();
    assert_eq!(layered.press_and_count("j"), Err(Error::NotNow));
}

#[test]
fn a_program_has_keys_of_its_own() {
    let mut session = begun(&[]);
    assert_eq!(session.type_to_key(b"j\tk"), Ok((2, Some('\t'))));
    assert_eq!(session.type_to_key(b"k\x1az"), Ok((2, Some('\x1a'))));
    assert_eq!(session.type_to_key(b"jk"), Ok((2, None)));
    assert_eq!(session.type_to_key(b"cx"), Ok((2, None)));
    assert_eq!(session.type_to_key(b"x"), Err(Error::NotNow));
}

#[test]
fn a_layer_hears_the_terminal_first() {
    let mut session = Session::new(false).unwrap();
    session.add_file("f", None, MODE).unwrap();
    session.add_lines(ADDED, "one\ntwo\nthree\n").unwrap();
    assert_eq!(session.set_theme(Theme::Light), Err(Error::NotNow));
    assert_eq!(session.set_label(0, 0, "ours"), Err(Error::NotNow));
    assert_eq!(session.name_sections(), Err(Error::NotNow));
    session.begin_layer(60, 10).unwrap();
    assert_eq!(session.begin_layer(60, 10), Err(Error::NotNow));
    assert_eq!(session.set_keys("x=undo x"), Err(Error::NoKey));
    session.set_theme(Theme::NoColours).unwrap();
    session.set_accept_text("c stages").unwrap();
    session.set_keys("x=undo ctrl-n=j").unwrap();
    let first = Key {
        commit: Some(0),
        ..key(Some(0), Some(0))
    };
    session.start(Folds::Open, first).unwrap();
    session.name_sections().unwrap();
    assert_eq!(session.selected(), Ok(first));
    let painted = String::from_utf8(session.paint().unwrap()).unwrap();
    assert!(painted.contains("c stages") && painted.contains("Section 1/1"));
    session.set_label(0, 0, "ours (main)").unwrap();
    let painted = String::from_utf8(session.paint().unwrap()).unwrap();
    assert!(painted.contains("ours (main)") && !painted.contains("c stages"));
    session.type_bytes(b"v\x0e ").unwrap();
    assert_eq!(session.marks(0), Ok(vec![true, true, false]));
    session.type_bytes(b"x").unwrap();
    assert_eq!(session.marks(0), Ok(vec![false; 3]));
    // while a text is asked for, no key is told
    session.type_bytes(b"/th").unwrap();
    assert_eq!(session.type_to_key(b"\x0cree"), Ok((1, None)));
    session.type_bytes(b"ree\r ").unwrap();
    assert_eq!(session.type_to_key(b"\t"), Ok((1, Some('\t'))));
    session.press("c").unwrap();
    assert_eq!(session.marks(0), Ok(vec![false, false, true]));
    assert_eq!(session.start(Folds::AsTheyAre, first), Err(Error::NotNow));
}

#[test]
fn calls_beneath_a_layer_are_logged() {
    let mut session = Session::new(false).unwrap();
    session.add_file("f", None, MODE).unwrap();
    session.add_lines(ADDED, "one\ntwo\n").unwrap();
    assert_eq!(session.log(), Err(Error::NotNow));
    session.begin_layer(60, 10).unwrap();
    assert_eq!(session.logged(), Err(Error::NotNow));
    session.log().unwrap();
    session.press("shift-F").unwrap();
    session.type_bytes(b"/two\r").unwrap();
    let calls = "size 60 9\nbatch shift-F \nselect 0 0 1\n";
    assert_eq!(session.logged().as_deref(), Ok(calls));
    session.press("c").unwrap();
    assert_eq!(session.logged(), Ok(format!("{calls}batch c \n")));
}

#[test]
fn a_state_in_json_has_a_layer() {
    let json = r#"{"is_read_only":false,"commits":[{"message":null}],"files":[]}"#;
    let mut session = Session::layer_of_json(json, 40, 8).unwrap();
    // the status row is the last one
    let last: String = (0..40).map(|column| session.symbol(7, column)).collect();
    let text = session.text().unwrap();
    assert_eq!(text.lines().count(), 8);
    assert_eq!(text.lines().last(), Some(&*format!("\"{last}\"")));
    assert!(last.contains("lines: 0, files: 0"), "{last}");
    assert_eq!(session.symbol(8, 0), "");
    session.press("q").unwrap();
    assert_eq!(session.end(), Some(End::Cancelled));
}

#[test]
fn bytes_of_a_terminal_are_events() {
    let mut session = Session::new(false).unwrap();
    let click = Event::Click { row: 3, column: 2 };
    let sent = b"j\x1b[<0;3;4Mx\x1b[";
    let events = vec![Event::FocusNext, click, Event::None];
    assert_eq!(session.decode(sent), Ok(events));
    assert_eq!(session.decode(b"A"), Ok(vec![Event::FocusPrev]));
    assert_eq!(session.decode(b"\x1b"), Ok(vec![]));
    assert_eq!(session.decode_idle(), Ok(vec![Event::QuitEscape]));
    assert_eq!(session.decode_idle(), Ok(vec![]));
    // more words than the first room has
    let many = vec![b'd' & 0x1f; 10_000];
    let pages = vec![Event::FocusNextPage; 10_000];
    assert_eq!(session.decode(&many), Ok(pages));
}

#[test]
fn an_accepted_session_has_sides() {
    let mut session = Session::new(false).unwrap();
    assert_eq!(session.stage(), Stage::Building);
    session.add_commit(None).unwrap();
    session.add_commit(None).unwrap();
    assert_eq!(session.add_commit(None), Err(Error::NotAccepted));
    session.add_file("foo/bar", None, MODE).unwrap();
    session.begin(80, 24).unwrap();
    session.press("c").unwrap();
    assert_eq!(
        (session.stage(), session.end()),
        (Stage::Accepted, Some(End::Accepted))
    );
    assert_eq!(session.file_count(), Ok(1));
    for side in [Side::Selected, Side::Unselected] {
        let told = session.side(0, side).unwrap();
        assert_eq!((told.mode, told.contents), (MODE, SideContents::Unchanged));
        assert_eq!(session.side(1, side), Err(Error::NoItem));
    }
}

#[test]
fn a_user_at_a_terminal() {
    let mut session = Session::new(false).unwrap();
    session.add_commit(Some("before")).unwrap();
    session.add_file("letter", Some("draft"), MODE).unwrap();
    session.add_lines(LineKind::Context, "a\n").unwrap();
    session.add_lines(ADDED, "b\n").unwrap();
    session.add_section(SectionKind::Changed).unwrap();
    session
        .add_lines(LineKind::changed(ChangeType::Added), "c\n")
        .unwrap();
    session.add_mode(FileMode::Unix(0o100_755), false).unwrap();
    session.add_file("image", None, MODE).unwrap();
    session.add_binary(None, Some("3 bytes"), false).unwrap();
    session.begin(40, 12).unwrap();
    assert!(session.paint().unwrap().starts_with(b"\x1b[?2026h"));
    assert_eq!(session.paint().unwrap(), b"");
    session.type_bytes(b"ajk").unwrap();
    assert_eq!(
        session.selected().unwrap(),
        Key {
            commit: Some(0),
            ..key(None, None)
        }
    );
    assert_eq!(session.marks(0), Ok(vec![true, true, true]));
    let place = session.selected_line().unwrap();
    assert_eq!((place.file, place.old_line, place.new_line), (0, 1, 1));
    assert_eq!(session.line(key(Some(2), Some(0))).unwrap(), "c\n");
    session.idle().unwrap();
    session.resize(60, 20).unwrap();
    session.click(19, 59).unwrap();
    session.repaint().unwrap();
    session.press("e").unwrap();
    assert_eq!(session.stage(), Stage::Editing);
    assert_eq!(session.text().unwrap(), "before");
    session.answer("after").unwrap();
    assert_eq!(session.message(0).unwrap(), "after");
    assert_eq!(session.message(1), Err(Error::NoItem));
    session.press("c").unwrap();
    assert_eq!(session.end(), Some(End::Accepted));
    let side = |file, side| session.side(file, side).unwrap();
    let selected = side(0, Side::Selected);
    assert_eq!(selected.mode, FileMode::Unix(0o100_755));
    assert_eq!(
        selected.contents,
        SideContents::Text("a\nb\nc\n".to_owned())
    );
    assert_eq!(
        side(0, Side::Unselected).contents,
        SideContents::Text("a\n".to_owned())
    );
    assert_eq!(side(1, Side::Selected).contents, SideContents::Binary);
}

#[test]
fn a_place_of_the_screen_has_an_owner_and_a_symbol() {
    let mut session = Session::new(false).unwrap();
    session.add_file("日本", None, MODE).unwrap();
    session.add_lines(ADDED, "b\n").unwrap();
    session.begin(40, 12).unwrap();
    session.press("l").unwrap();
    let of_file = Key {
        commit: Some(0),
        ..key(None, None)
    };
    assert_eq!(session.owner(0, 0).0, Owner::Menu);
    assert_eq!(session.owner(1, 0), (Owner::Mark, of_file));
    assert_eq!(session.owner(1, 4), (Owner::File, of_file));
    assert_eq!(session.owner(1, 39), (Owner::Fold, of_file));
    let of_line = Key {
        commit: Some(0),
        ..key(Some(0), Some(0))
    };
    assert_eq!(session.owner(3, 20), (Owner::Added, of_line));
    assert_eq!(session.owner(11, 0), (Owner::Nobody, Key::default()));
    assert_eq!(session.symbol(1, 4), "日");
    assert_eq!(session.symbol(1, 5), "");
    assert_eq!(session.symbol(12, 0), "");
}

#[test]
fn a_state_in_json() {
    let json = r#"{"is_read_only":false,"commits":[],"files":[]}"#;
    let session = Session::of_json(json, 40, 10).unwrap();
    assert_eq!(
        (session.stage(), session.file_count()),
        (Stage::Waiting, Ok(0))
    );
    assert_eq!(Session::of_json("{}", 40, 10).unwrap_err(), Error::BadState);
}

#[test]
fn lines_and_versions() {
    let mut session = Session::new(false).unwrap();
    assert_eq!(session.add_line(ADDED, "a"), Err(Error::NoItem));
    session.add_file("f", None, MODE).unwrap();
    session.add_line(LineKind::Context, "").unwrap();
    let checked = LineKind::Changed {
        change_type: ChangeType::Removed,
        is_checked: true,
    };
    session.add_line(checked, "a\nb").unwrap();
    session.add_line(ADDED, "a").unwrap();
    assert_eq!(session.line(key(Some(0), Some(0))).unwrap(), "");
    assert_eq!(session.line(key(Some(1), Some(0))).unwrap(), "a\nb");
    assert_eq!(session.line(key(Some(1), Some(2))), Err(Error::NoItem));
    assert_eq!(session.marks(0), Ok(vec![true, false]));
    assert_eq!(session.mark(key(Some(1), None)), Ok(Tristate::Partial));
    let old = Version {
        mode: MODE,
        bytes: b"a\xff\nb",
    };
    let new = Version {
        mode: FileMode::Absent,
        bytes: b"",
    };
    session.add_versions("g", None, old, new).unwrap();
    assert_eq!(session.side_bytes(1, Side::Selected).unwrap(), b"a\xff\nb");
    assert_eq!(session.side_bytes(1, Side::Unselected).unwrap(), b"");
    assert_eq!(
        session.side(1, Side::Unselected).unwrap().mode,
        FileMode::Absent
    );
}

/// A renamed file with a change of its mode, and one that is created.
fn two_files() -> Session {
    let mut session = Session::new(false).unwrap();
    session.add_file("new", Some("old"), MODE).unwrap();
    session.add_mode(FileMode::Unix(0o100755), false).unwrap();
    session.add_lines(LineKind::Context, "same\n").unwrap();
    let removed = LineKind::changed(ChangeType::Removed);
    session.add_lines(removed, "one\n").unwrap();
    session.add_lines(ADDED, "two\n").unwrap();
    let (mode, bytes) = (MODE, "a\nb\n".as_bytes());
    let absent = Version {
        mode: FileMode::Absent,
        bytes: b"",
    };
    session
        .add_versions("made", None, absent, Version { mode, bytes })
        .unwrap();
    session
}

#[test]
fn a_side_is_a_preview() {
    let words = ["space", "j", "a", "shift-F", "j", "j", "space", "A", "k"];
    for count in 0..=words.len() {
        let mut session = two_files();
        session.begin(80, 24).unwrap();
        let press = |word: &&str| session.press(word).unwrap();
        words[..count].iter().for_each(press);
        let sides = |session: &Session| {
            let of_file = |file| {
                let side = |side| (session.side(file, side), session.side_bytes(file, side));
                (side(Side::Selected), side(Side::Unselected))
            };
            [of_file(0), of_file(1)]
        };
        let preview = sides(&session);
        session.press("c").unwrap();
        assert_eq!(session.stage(), Stage::Accepted);
        assert_eq!(sides(&session), preview, "after {count} words");
    }
}

#[test]
fn a_pager_shows_what_accepting_gives() {
    let mut session = two_files();
    session.begin(80, 24).unwrap();
    session.press("space").unwrap();
    let mut pager = session.pager(0, Side::Selected).unwrap();
    let page = String::from_utf8(session.paint_pager(&pager, 60, 8).unwrap()).unwrap();
    assert_eq!(session.side_bytes(0, Side::Selected).unwrap(), b"same\ntwo\n");
    assert!(page.contains("  same") && page.contains("+ two") && page.contains("1-2/2"), "{page:?}");
    // the first line of the section is removed: the next one is on the second row of the side
    session.show_in_pager(&mut pager, 2, 0, 2).unwrap();
    assert_eq!(pager.top(), 1);
    session.type_in_pager(&mut pager, b"P", 60, 8).unwrap();
    assert_eq!((pager.side(), pager.top(), pager.is_open()), (Side::Unselected, 0, true));
    session.type_in_pager(&mut pager, b"\x1b", 60, 8).unwrap();
    assert!(!pager.is_open());
    assert_eq!(session.stage(), Stage::Waiting);
    assert_eq!(session.pager(9, Side::Selected), Err(Error::NoItem));
}

#[test]
fn a_refused_call_says_why() {
    let mut session = begun(&[]);
    let refused = session.press("no word").unwrap_err();
    assert_eq!(refused, Error::NoWord);
    assert!(!refused.to_string().is_empty());
    assert_eq!(session.add_file("f", None, MODE), Err(Error::NotNow));
    assert_eq!(session.answer("text"), Err(Error::NotNow));
    assert_eq!(Session::new(false).unwrap().paint(), Err(Error::NotNow));
    let errors = [
        Error::Closed,
        Error::NotNow,
        Error::TooLong,
        Error::NoMemory,
        Error::NoItem,
    ];
    let mut words: Vec<String> = errors.iter().map(ToString::to_string).collect();
    words.sort();
    words.dedup();
    assert_eq!(words.len(), errors.len());
}

#[test]
fn a_session_moves_to_another_thread() {
    let mut session = begun(&[]);
    let stage = std::thread::spawn(move || {
        session.press("q").unwrap();
        session.stage()
    });
    assert_eq!(stage.join().unwrap(), Stage::Ended);
}

#[test]
fn the_library_is_of_this_version() {
    let mut numbers = env!("CARGO_PKG_VERSION")
        .split('.')
        .map(|it| it.parse::<u32>().unwrap());
    let mut number = || numbers.next().unwrap();
    assert_eq!(version(), 10_000 * number() + 100 * number() + number());
}

#[test]
fn a_long_text_is_read_whole() {
    let long = format!("{}\n", "x".repeat(100_000));
    let mut session = Session::new(false).unwrap();
    session.add_file("f", None, MODE).unwrap();
    session.add_lines(ADDED, &long.repeat(3)).unwrap();
    assert_eq!(session.line(key(Some(0), Some(2))).unwrap(), long);
    let side = session.side(0, Side::Unselected).unwrap();
    assert_eq!(side.contents, SideContents::Text(long.repeat(3)));
    assert_eq!(session.marks(0), Ok(vec![false; 3]));
}

/// A file with five items in four sections.
fn file_of_items() -> Session {
    let mut session = Session::new(false).unwrap();
    session.add_file("new", Some("old"), MODE).unwrap();
    session.add_mode(FileMode::Unix(0o100_755), true).unwrap();
    session.add_lines(LineKind::Context, "a\nb\n").unwrap();
    session.add_lines(ADDED, "c\nd\n").unwrap();
    let removed = LineKind::changed(ChangeType::Removed);
    session.add_lines(removed, "e\n").unwrap();
    session.add_binary(None, Some("more"), false).unwrap();
    session.add_file("other", None, MODE).unwrap();
    session.add_lines(ADDED, "f\n").unwrap();
    session
}

#[test]
fn marks_are_handed_in() {
    let mut session = file_of_items();
    assert_eq!(
        session.marks(0).unwrap(),
        [true, false, false, false, false]
    );
    let marks = [false, true, false, true, true];
    session.set_marks(0, &marks).unwrap();
    assert_eq!(session.marks(0).unwrap(), marks);
    assert_eq!(session.marks(1).unwrap(), [false]);
    for (file, count) in [(0, 4), (0, 6), (0, 0), (2, 0), (usize::MAX, 1)] {
        assert_eq!(
            session.set_marks(file, &[true; 6][..count]),
            Err(Error::NoItem)
        );
    }
    assert_eq!(session.marks(0).unwrap(), marks);
    session.begin(80, 24).unwrap();
    assert_eq!(session.set_marks(0, &marks), Err(Error::NotNow));
    session.press("c").unwrap();
    assert_eq!(session.marks(0).unwrap(), marks);
}

#[test]
fn items_have_kinds_and_parts() {
    let session = file_of_items();
    let item = |section, line| {
        session
            .item(key(section, line))
            .map(|it| (it.kind, it.parts))
    };
    assert_eq!(item(None, None), Ok((Owner::File, 4)));
    assert_eq!(item(Some(0), None), Ok((Owner::Mode, 0)));
    assert_eq!(item(Some(1), None), Ok((Owner::Context, 2)));
    assert_eq!(item(Some(1), Some(1)), Ok((Owner::Context, 0)));
    assert_eq!(item(Some(2), None), Ok((Owner::Section, 3)));
    assert_eq!(item(Some(2), Some(0)), Ok((Owner::Added, 0)));
    assert_eq!(item(Some(2), Some(2)), Ok((Owner::Removed, 0)));
    assert_eq!(item(Some(3), None), Ok((Owner::Binary, 0)));
    assert_eq!(item(Some(2), Some(3)), Err(Error::NoItem));
    assert_eq!(item(Some(4), None), Err(Error::NoItem));
    assert_eq!(session.path(0).as_deref(), Ok("new"));
    assert_eq!(session.old_path(0).as_deref(), Ok("old"));
    assert_eq!(session.path(1).as_deref(), Ok("other"));
    assert_eq!(session.old_path(1), Err(Error::NoItem));
    assert_eq!(session.path(2), Err(Error::NoItem));
}

#[test]
fn an_item_is_selected_by_its_key() {
    let mut session = file_of_items();
    let line = Key {
        commit: Some(0),
        ..key(Some(2), Some(1))
    };
    assert_eq!(session.select(line), Err(Error::NotNow));
    session.begin(80, 24).unwrap();
    session.select(line).unwrap();
    assert_eq!(session.selected(), Ok(line));
    let context = Key {
        section: Some(1),
        line: None,
        ..line
    };
    for other in [context, Key::default()] {
        assert_eq!(session.select(other), Err(Error::NoItem));
        assert_eq!(session.selected(), Ok(line));
    }
}

#[test]
fn a_silence_is_awaited_behind_an_escape() {
    let mut session = begun(&[]);
    for (bytes, is_pending) in [
        (&b"j"[..], false),
        (b"\x1b", true),
        (b"[", false),
        (b"A", false),
    ] {
        session.type_bytes(bytes).unwrap();
        assert_eq!(session.is_escape_pending(), Ok(is_pending));
    }
    session.type_bytes(b"\x1b").unwrap();
    session.idle().unwrap();
    assert_eq!(session.is_escape_pending(), Ok(false));
}

/// Returns a session over a file with wide symbols, which has not begun.
fn with_wide_symbols() -> Session {
    let mut session = Session::new(false).unwrap();
    session.add_file("f", None, MODE).unwrap();
    session
        .add_lines(ADDED, "wide \u{4e2d}\u{6587}\ne\u{301}\n")
        .unwrap();
    session
}

#[test]
fn cells_are_those_of_the_screen() {
    let mut session = with_wide_symbols();
    assert_eq!(session.cells(), Err(Error::NotNow));
    for (width, height) in [(30, 6), (9, 3), (1, 1), (0, 4), (100, 90)] {
        if session.stage() == Stage::Building {
            session.begin(width, height).unwrap();
            session.press("f").unwrap();
        } else {
            session.resize(width, height).unwrap();
        }
        let rows = session.cells().unwrap();
        assert_eq!(rows.len(), if width == 0 { 0 } else { height.into() });
        for (row, cells) in (0..).zip(&rows) {
            assert_eq!(cells.len(), usize::from(width));
            assert_eq!(
                cells.iter().map(|cell| cell.columns).sum::<usize>(),
                cells.len()
            );
            for (column, cell) in (0..).zip(cells) {
                assert_eq!(cell.symbol, session.symbol(row, column));
                assert_eq!(cell.symbol.is_empty(), cell.columns == 0);
                assert_eq!(cell.style.background, None);
            }
        }
    }
    session.press("c").unwrap();
    assert_eq!(session.cells(), Err(Error::NotNow));
}

#[test]
fn cells_have_the_styles_and_the_status_row() {
    let mut session = with_wide_symbols();
    session.begin_layer(40, 6).unwrap();
    session.set_accept_text("c commits").unwrap();
    session.start(Folds::Open, key(Some(0), Some(0))).unwrap();
    let rows = session.cells().unwrap();
    assert_eq!(rows.len(), 6);
    let text = |row: usize| -> String { rows[row].iter().map(|cell| &*cell.symbol).collect() };
    assert!(text(5).ends_with("c commits"), "{}", text(5));
    assert!(rows[5]
        .iter()
        .all(|cell| cell.columns == 0 || cell.style.is_reversed));
    // the menu bar is reversed, and an added line green
    assert!(rows[0].iter().all(|cell| cell.style.is_reversed));
    let line = (1..5).find(|row| text(*row).contains("wide \u{4e2d}\u{6587}"));
    let cells = &rows[line.unwrap()];
    let place = cells.iter().position(|cell| cell.symbol == "w").unwrap();
    assert_eq!(cells[place].style.foreground, Some(Colour::Green));
    let wide = cells
        .iter()
        .position(|cell| cell.symbol == "\u{4e2d}")
        .unwrap();
    let columns: Vec<_> = cells[wide..wide + 4]
        .iter()
        .map(|cell| cell.columns)
        .collect();
    assert_eq!(columns, [2, 0, 2, 0]);
    session.set_theme(Theme::NoColours).unwrap();
    let rows = session.cells().unwrap();
    let coloured = |cell: &scm_record::session::Cell| cell.style.foreground.is_some();
    assert!(!rows.iter().flatten().any(coloured));
}
