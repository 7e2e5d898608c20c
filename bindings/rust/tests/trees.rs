//! What becomes of paths, and which paths are refused.
use scm_record::trees::{
    decide_rows, path_fault, Changed, InTree, Origin, PathFault, Shown, ShownBy, Side,
};
use scm_record::FileMode::{self, Absent, Unix};

#[test]
fn rows_are_decided() {
    let cases: [(&[u8], &[u8]); 7] = [
        (b"", b""),
        (b"on= kept\0", b""),
        (b"ono a\0onn b\0onc c\0on- d\0", b"o a\0n b\0c c\0- d\0"),
        (b"o-o a\0-nn a/b\0", b"o a\0- a/b\0x a/b\0y a\0"),
        (b"oxo a\0", b"# oxo a\0"),
        (b"ono a\0ono a\0", b"2 a\0"),
        (b"-nn .git/hooks/x\0", b"! .git/hooks/x\0"),
    ];
    for (rows, decided) in cases {
        let found = decide_rows(rows).expect("memory is found");
        assert_eq!(
            String::from_utf8_lossy(&found),
            String::from_utf8_lossy(decided)
        );
    }
}

#[test]
fn what_is_decided_has_any_length() {
    let rows: Vec<u8> = (0..1000)
        .flat_map(|number| format!("onn {number:04}\0").into_bytes())
        .collect();
    let found = decide_rows(&rows).expect("memory is found");
    assert_eq!(found.len(), 1000 * "n 0000\0".len());
}

#[test]
fn paths_are_refused() {
    let cases = [
        ("a/b", None),
        ("", Some(PathFault::Empty)),
        ("/a", Some(PathFault::Empty)),
        ("a/./b", Some(PathFault::Dot)),
        ("a/..", Some(PathFault::DotDot)),
        ("a/git~1", Some(PathFault::OfGit)),
        (".JJ/x", Some(PathFault::OfJj)),
        ("a\0b", Some(PathFault::WithNul)),
    ];
    for (path, fault) in cases {
        assert_eq!(path_fault(path), fault, "{path}");
    }
}

/// A change that is shown by `shown_by`.
fn changed(old_mode: FileMode, new_mode: FileMode, shown_by: ShownBy) -> Changed {
    Changed {
        old_mode,
        new_mode,
        shown_by,
        is_renamed: false,
    }
}

/// A selected side with no bytes.
fn empty(mode: FileMode) -> Side {
    Side {
        is_selected: true,
        mode,
        is_binary: false,
        is_empty: true,
    }
}

/// What a tree has at one path.
fn there(mode: FileMode, contents: Origin) -> InTree {
    InTree {
        mode,
        old_path_mode: Absent,
        contents,
    }
}

#[test]
fn files_have_a_version_in_a_tree() {
    let (text, link) = (FileMode::FILE_DEFAULT, Unix(0o120_000));
    let gone = changed(text, Absent, ShownBy::Lines);
    assert_eq!(gone.in_tree(empty(Absent)), there(Absent, Origin::Side));
    let lines = Side {
        is_selected: false,
        is_empty: false,
        ..empty(Absent)
    };
    assert_eq!(gone.in_tree(lines), there(text, Origin::Side));
    let beside = changed(link, text, ShownBy::Lines);
    assert_eq!(beside.in_tree(empty(Absent)), there(link, Origin::Old));
    assert_eq!(beside.in_tree(empty(text)), there(text, Origin::Side));
    let whole = changed(Absent, text, ShownBy::OneItem);
    assert_eq!(whole.in_tree(empty(text)), there(Absent, Origin::Old));
    let item = Side {
        is_binary: true,
        ..empty(text)
    };
    assert_eq!(whole.in_tree(item), there(text, Origin::New));
}

#[test]
fn renamed_files_are_at_one_path() {
    let (old, new) = (Unix(0o100_755), FileMode::FILE_DEFAULT);
    let renamed = Changed {
        is_renamed: true,
        ..changed(old, new, ShownBy::Lines)
    };
    assert_eq!(renamed.in_tree(empty(new)), there(new, Origin::Side));
    let stays = InTree {
        old_path_mode: old,
        ..there(Absent, Origin::Side)
    };
    assert_eq!(renamed.in_tree(empty(Unix(0o755))), stays);
}

#[test]
fn states_are_given_items() {
    let (text, run) = (FileMode::FILE_DEFAULT, Unix(0o100_755));
    let shown = Shown {
        old_mode: text,
        new_mode: run,
        has_mode: true,
        has_contents: true,
    };
    assert_eq!(changed(text, run, ShownBy::Items).shown(true), shown);
    let whole = Shown {
        old_mode: run,
        has_mode: false,
        ..shown
    };
    assert_eq!(changed(Absent, run, ShownBy::OneItem).shown(true), whole);
}
