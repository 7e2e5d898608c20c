//! The merge of two changed versions of a file.
use scm_record::merges::{marks_of, Labels, MergeVersion, Versions, MARKER_LENGTH};
use scm_record::session::Error;
use scm_record::{ChangeType, Section, SectionChangedLine};

/// The lines of a merge, each with the letter of its version.
fn lines_of(versions: &Versions<'_>) -> Vec<(char, String)> {
    let letter = |version| match version {
        MergeVersion::Agreed => ' ',
        MergeVersion::Ours => 'o',
        MergeVersion::Base => 'b',
        MergeVersion::Theirs => 't',
    };
    let lines = versions.lines().expect("memory is found");
    lines
        .into_iter()
        .map(|line| (letter(line.version), line.text))
        .collect()
}

fn line(letter: char, text: &str) -> (char, String) {
    (letter, text.to_string())
}

#[test]
fn versions_are_merged() {
    let versions = |base, ours, theirs| Versions { base, ours, theirs };
    let cases: [(Versions<'_>, Vec<(char, String)>); 4] = [
        (versions(b"", b"", b""), vec![]),
        // one side alone changed each line
        (
            versions(b"a\nb\nc\n", b"A\nb\nc\n", b"a\nb\nC\n"),
            vec![line(' ', "A\n"), line(' ', "b\n"), line(' ', "C\n")],
        ),
        // ours deleted what theirs changed
        (
            versions(b"a\nb\n", b"a\n", b"a\nB\n"),
            vec![
                line(' ', "a\n"),
                line('o', ""),
                line('b', "b\n"),
                line('t', "B\n"),
            ],
        ),
        // both added a file, without a line end in one of them
        (
            versions(b"", b"x\n", b"y"),
            vec![line('o', "x\n"), line('b', ""), line('t', "y")],
        ),
    ];
    for (versions, wanted) in cases {
        assert_eq!(lines_of(&versions), wanted);
    }
}

#[test]
fn marks_choose_lines() {
    let versions = Versions {
        base: b"a\nb",
        ours: b"a\nO",
        theirs: b"a\nT\n",
    };
    let cases: [([bool; 3], &[u8], usize); 5] = [
        ([false, true, false], b"a\n", 1),
        ([true, true, false], b"a\nO", 0),
        ([false, false, false], b"a\nb", 0),
        ([false, true, true], b"a\nT\n", 0),
        ([true, false, true], b"a\nO\nb\nT\n", 0),
    ];
    for (marks, merged, open) in cases {
        assert_eq!(
            versions.merged_bytes(&marks),
            Ok(merged.to_vec()),
            "{marks:?}"
        );
        assert_eq!(versions.open_conflicts(&marks), Ok(open), "{marks:?}");
    }
    for marks in [&[][..], &[true, true], &[true; 4]] {
        assert_eq!(versions.merged_bytes(marks), Err(Error::NoItem));
        assert_eq!(versions.open_conflicts(marks), Err(Error::NoItem));
    }
}

#[test]
fn open_conflicts_are_marked() {
    let versions = Versions {
        base: b"a\nb",
        ours: b"a\nO\xff",
        theirs: b"a\nT\n",
    };
    let open = [false, true, false];
    let none = b"a\n<<<<<<<\nO\xff\n|||||||\nb\n=======\nT\n>>>>>>>\n";
    assert_eq!(
        versions.marked_bytes(&open, &Labels::default(), MARKER_LENGTH),
        Ok(none.to_vec())
    );
    let long = "x".repeat(10_000).into_bytes();
    let labels = Labels {
        base: b"left\nout",
        ours: b"ours",
        theirs: &long,
    };
    let found = versions.marked_bytes(&open, &labels, MARKER_LENGTH);
    let wanted = [
        b"a\n<<<<<<< ours\nO\xff\n|||||||\nb\n=======\nT\n>>>>>>> ".as_slice(),
        &long,
        b"\n",
    ];
    assert_eq!(found, Ok(wanted.concat()));
    let settled = [true, true, false];
    assert_eq!(
        versions.marked_bytes(&settled, &labels, MARKER_LENGTH),
        versions.merged_bytes(&settled)
    );
    assert_eq!(
        versions.marked_bytes(&[], &labels, MARKER_LENGTH),
        Err(Error::NoItem)
    );
}

#[test]
fn bytes_that_are_no_utf8_come_back() {
    let versions = Versions {
        base: b"\xff\r\n\0",
        ours: b"\xff\r\n\0",
        theirs: b"\xfe\n\xf3\xa0\x82\x80",
    };
    assert_eq!(versions.merged_bytes(&[]), Ok(versions.theirs.to_vec()));
}

#[test]
fn merges_have_any_length() {
    let numbered = |word: &str| -> Vec<u8> {
        (0..2000)
            .flat_map(|number| format!("{word}{number}\n").into_bytes())
            .collect()
    };
    let (ours, theirs) = (numbered("o"), numbered("t"));
    let versions = Versions {
        base: b"",
        ours: &ours,
        theirs: &theirs,
    };
    // all of ours, the base without lines, and all of theirs
    assert_eq!(lines_of(&versions).len(), 4001);
    let marks: Vec<bool> = (0..4001).map(|item| item >= 2000).collect();
    assert_eq!(versions.merged_bytes(&marks), Ok(theirs.clone()));
}

#[test]
fn markers_have_the_length_that_is_asked_for() {
    let versions = Versions {
        base: b"",
        ours: b">>>>\n",
        theirs: b"t\n",
    };
    let open = [false, true, false];
    let cases: [(usize, &[u8]); 4] = [
        // one more than a line begins with
        (0, b"<<<<<\n>>>>\n|||||\n=====\nt\n>>>>>\n"),
        (5, b"<<<<<\n>>>>\n|||||\n=====\nt\n>>>>>\n"),
        (6, b"<<<<<<\n>>>>\n||||||\n======\nt\n>>>>>>\n"),
        (9, b"<<<<<<<<<\n>>>>\n|||||||||\n=========\nt\n>>>>>>>>>\n"),
    ];
    for (length, marked) in cases {
        assert_eq!(
            versions.marked_bytes(&open, &Labels::default(), length),
            Ok(marked.to_vec()),
            "{length}"
        );
    }
    assert_eq!(
        versions.marked_bytes(&open, &Labels::default(), usize::MAX),
        Err(Error::NoMemory)
    );
}

/// A section of changed lines: whether each is checked, whether it is added, and its text.
fn changed(lines: &[(bool, bool, &'static str)]) -> Section<'static> {
    let line = |(is_checked, is_added, text): &(bool, bool, &'static str)| SectionChangedLine {
        is_checked: *is_checked,
        change_type: if *is_added {
            ChangeType::Added
        } else {
            ChangeType::Removed
        },
        line: (*text).into(),
    };
    Section::Changed {
        lines: lines.iter().map(line).collect(),
    }
}

/// A section of context.
fn context(lines: &[&'static str]) -> Section<'static> {
    Section::Unchanged {
        lines: lines.iter().map(|line| (*line).into()).collect(),
    }
}

/// Two conflicts, the second of them with a version without lines, and a line that one side alone added.
const TWO: Versions<'_> = Versions {
    base: b"a\nb\nc\nd\n",
    ours: b"a\nO\nc\n",
    theirs: b"t\na\nT\nT\nc\nD",
};

#[test]
fn versions_of_a_conflict_are_sections() {
    let wanted = [
        context(&["t\n", "a\n"]),
        changed(&[(false, true, "O\n")]),
        changed(&[(true, false, "b\n")]),
        changed(&[(false, true, "T\n"), (false, true, "T\n")]),
        context(&["c\n"]),
        changed(&[(false, true, "")]),
        changed(&[(true, false, "d\n")]),
        changed(&[(false, true, "D")]),
    ];
    let mut sections = TWO.sections().expect("memory is found");
    assert_eq!(sections, wanted);
    assert_eq!(TWO.open_conflicts(&marks_of(&sections)), Ok(2));
    for taken in [1, 7] {
        sections[taken].set_checked(true);
    }
    let marks = marks_of(&sections);
    assert_eq!(TWO.open_conflicts(&marks), Ok(0));
    assert_eq!(TWO.merged_bytes(&marks), Ok(b"t\na\nO\nc\nD".to_vec()));
}

#[cfg(feature = "jj")]
#[test]
fn sections_are_those_of_jj() {
    use scm_record::{File, FileMode, SelectedContents};

    let mut sections = TWO.jj_sections().expect("memory is found");
    let wanted = [
        context(&["t\n", "a\n"]),
        changed(&[
            (false, true, "O\n"),
            (false, false, "b\n"),
            (false, true, "T\n"),
            (false, true, "T\n"),
        ]),
        context(&["c\n"]),
        changed(&[(false, false, "d\n"), (false, true, "D")]),
    ];
    assert_eq!(sections, wanted);
    let selected = |sections: &[Section<'static>]| {
        let file = File {
            old_path: None,
            path: std::path::Path::new("f").into(),
            file_mode: FileMode::FILE_DEFAULT,
            sections: sections.to_vec(),
        };
        let (selected, _) = file.get_selected_contents();
        match selected.contents {
            SelectedContents::Text { contents, .. } => contents,
            other => panic!("{other:?}"),
        }
    };
    // as in jj, the lines of the base stay where nothing is checked
    assert_eq!(selected(&sections), "t\na\nb\nc\nd\n");
    sections[3].set_checked(true);
    assert_eq!(selected(&sections), "t\na\nb\nc\nD");
    let clean = Versions {
        theirs: TWO.base,
        ..TWO
    };
    assert_eq!(
        clean.jj_sections(),
        Ok(vec![context(&["a\n", "O\n", "c\n"])])
    );
    assert_eq!(
        Versions {
            base: b"",
            ours: b"",
            theirs: b""
        }
        .jj_sections(),
        Ok(vec![])
    );
    let bytes = Versions {
        ours: b"\xff",
        ..TWO
    };
    assert_eq!(bytes.jj_sections(), Err(Error::NotText));
}
