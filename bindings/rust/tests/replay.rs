//! Scripts of the program, replayed by runs of the crate. What the program prints has to come out.
//!
//! The scripts are the files of `examples/scripts` of the repository, and of the folders in it, that have a `.stdout` beside them. With
//! `GABROSTY_CASES` they are those of that folder, and of the folders in it: each `NAME.in` is a script, and the first line of
//! `NAME.out`, or of `NAME.repaired` if that is there, is the status of the program, before what it prints.
mod common;

use common::json::{json_of_optional, json_of_state, json_of_text, state_of_json, Json};
use scm_record::{
    Event, RecordError, RecordInput, Recorder, SelectedChanges, SelectedContents, TerminalKind,
    TestingScreenshot,
};
use std::collections::VecDeque;
use std::fmt::Write;
use std::fs;
use std::path::{Path, PathBuf};

/// The events of keys, by their words. Any other key has none.
const KEYS: [(&str, Event); 38] = [
    ("c", Event::QuitAccept),
    ("q", Event::QuitCancel),
    ("esc", Event::QuitEscape),
    ("ctrl-c", Event::QuitInterrupt),
    ("?", Event::Help),
    ("e", Event::EditCommitMessage),
    ("space", Event::ToggleItem),
    ("enter", Event::ToggleItemAndAdvance),
    ("a", Event::ToggleAll),
    ("shift-A", Event::ToggleAllUniform),
    ("up", Event::FocusPrev),
    ("k", Event::FocusPrev),
    ("down", Event::FocusNext),
    ("j", Event::FocusNext),
    ("pageup", Event::FocusPrevSameKind),
    ("pagedown", Event::FocusNextSameKind),
    (
        "shift-left",
        Event::FocusOuter {
            fold_section: false,
        },
    ),
    (
        "shift-h",
        Event::FocusOuter {
            fold_section: false,
        },
    ),
    ("left", Event::FocusOuter { fold_section: true }),
    ("h", Event::FocusOuter { fold_section: true }),
    ("right", Event::FocusInner),
    ("l", Event::FocusInner),
    ("shift-right", Event::FocusInner),
    ("shift-l", Event::FocusInner),
    ("ctrl-u", Event::FocusPrevPage),
    ("ctrl-d", Event::FocusNextPage),
    ("f", Event::ExpandItem),
    ("shift-F", Event::ExpandAll),
    ("ctrl-up", Event::ScrollUp),
    ("ctrl-y", Event::ScrollUp),
    ("wheel-up", Event::ScrollUp),
    ("ctrl-down", Event::ScrollDown),
    ("ctrl-e", Event::ScrollDown),
    ("wheel-down", Event::ScrollDown),
    ("ctrl-pageup", Event::PageUp),
    ("ctrl-b", Event::PageUp),
    ("ctrl-pagedown", Event::PageDown),
    ("ctrl-f", Event::PageDown),
];

/// Returns the words of a line.
fn words(line: &str) -> impl Iterator<Item = &str> {
    line.split(' ').filter(|word| !word.is_empty())
}

/// A script: the screen, the state, what each read and each edit returns, and the screenshots.
#[derive(Default)]
struct Script {
    size: (usize, usize),
    state: String,
    reads: VecDeque<Result<Vec<Event>, String>>,
    edits: VecDeque<Result<String, String>>,
    shots: Vec<TestingScreenshot>,
}

impl Script {
    fn event(&mut self, word: &str) -> Event {
        if let Some(place) = word.strip_prefix("click:") {
            let (row, column) = place.split_once(':').unwrap();
            let number = |text: &str| text.parse().unwrap();
            return Event::Click {
                row: number(row),
                column: number(column),
            };
        }
        match word {
            "shot" => {
                let shot = TestingScreenshot::default();
                self.shots.push(shot.clone());
                shot.event()
            }
            "redraw" => Event::Redraw,
            "ensure" => Event::EnsureSelectionInViewport,
            "view" => Event::ToggleCommitViewMode,
            _ => {
                let row = KEYS.iter().find(|row| row.0 == word);
                row.map_or(Event::None, |row| row.1.clone())
            }
        }
    }

    fn add_command(&mut self, line: &str) {
        if line.is_empty() || line.starts_with('#') {
            return;
        }
        let command = line.trim_start_matches(' ');
        if let Some(text) = command.strip_prefix("answer ") {
            self.edits.push_back(Ok(Json::read(text).text().to_owned()));
        } else if let Some(text) = command.strip_prefix("fault edit ") {
            self.edits.push_back(Err(text.to_owned()));
        } else if let Some(text) = command.strip_prefix("fault read ") {
            self.reads.push_back(Err(text.to_owned()));
        } else {
            let mut words = words(command);
            assert_eq!(words.next(), Some("batch"), "{line}");
            let events = words.map(|word| self.event(word)).collect();
            self.reads.push_back(Ok(events));
        }
    }

    /// Reads a script: its size, the lines of a state, the line `script`, and commands. A line may end in a carriage return, and
    /// spaces may be around words.
    fn read(text: &str) -> Script {
        let mut script = Script::default();
        let mut lines = text.lines();
        let numbers: Vec<usize> = words(lines.next().unwrap())
            .skip(1)
            .map(|word| word.parse().unwrap())
            .collect();
        script.size = (numbers[0], numbers[1]);
        let is_state = |line: &&str| line.trim_matches(' ') != "script";
        script.state = lines
            .by_ref()
            .take_while(is_state)
            .collect::<Vec<_>>()
            .join("\n");
        lines.for_each(|line| script.add_command(line));
        script
    }
}

impl RecordInput for Script {
    fn terminal_kind(&self) -> TerminalKind {
        let (width, height) = self.size;
        TerminalKind::Testing { width, height }
    }

    fn next_events(&mut self) -> Result<Vec<Event>, RecordError> {
        let read = self.reads.pop_front();
        let read = read.unwrap_or_else(|| Err("no events left".to_owned()));
        read.map_err(|text| RecordError::ReadInput(text.into()))
    }

    fn edit_commit_message(&mut self, _message: &str) -> Result<String, RecordError> {
        let edit = self.edits.pop_front();
        let edit = edit.unwrap_or_else(|| Err("No more commit messages available".to_owned()));
        edit.map_err(RecordError::Other)
    }
}

fn words_of(side: &SelectedChanges<'_>) -> String {
    let contents = match &side.contents {
        SelectedContents::Unchanged => "unchanged".to_owned(),
        SelectedContents::Text { contents } => format!("text {}", json_of_text(contents)),
        SelectedContents::Binary {
            old_description,
            new_description,
        } => {
            let [old, new] = [old_description, new_description]
                .map(|description| json_of_optional(description.as_deref()));
            format!("binary {old} {new}")
        }
    };
    format!("{} {contents}", side.file_mode)
}

/// Returns what the program prints of this script, with its status.
fn answer_to(mut script: Script) -> (String, u8) {
    let state = state_of_json(&script.state);
    let ended = Recorder::new(state, &mut script).run();
    let mut told = String::new();
    for (index, shot) in script.shots.iter().enumerate() {
        write!(told, "screen {index}\n{shot}").unwrap();
        if !told.ends_with('\n') {
            told.push('\n');
        }
    }
    match ended {
        Err(error) => {
            writeln!(told, "fault: {error}").unwrap();
            (told, 1)
        }
        Ok(state) => {
            writeln!(told, "accepted\n{}", json_of_state(&state)).unwrap();
            for (index, file) in state.files.iter().enumerate() {
                let (selected, unselected) = file.get_selected_contents();
                writeln!(told, "file {index}\nselected {}", words_of(&selected)).unwrap();
                writeln!(told, "unselected {}", words_of(&unselected)).unwrap();
            }
            (told, 0)
        }
    }
}

/// A script, and what the program prints of it, with its status if that is known.
struct Case {
    name: String,
    script: String,
    told: String,
    status: Option<u8>,
}

/// Returns the scripts of a folder, and of the folders in it, that the program runs: those of status 2 it refuses.
fn cases_of(folder: &Path) -> Vec<Case> {
    let mut cases = Vec::new();
    for path in paths_in(folder) {
        if path.is_dir() {
            let paths = paths_in(&path);
            cases.extend(paths.iter().filter_map(|path| case_of(path)));
        } else {
            cases.extend(case_of(&path));
        }
    }
    cases.retain(|case| case.status != Some(2));
    cases
}

/// Returns what is in a folder, by name.
fn paths_in(folder: &Path) -> Vec<PathBuf> {
    let entries = fs::read_dir(folder).unwrap();
    let mut paths: Vec<PathBuf> = entries.map(|entry| entry.unwrap().path()).collect();
    paths.sort();
    paths
}

/// Returns the script at `path`, if what the program prints of it stands beside it.
fn case_of(path: &Path) -> Option<Case> {
    let text = |path: &Path| fs::read_to_string(path).ok();
    let name = path.file_name()?.to_string_lossy().into_owned();
    let script = text(path)?;
    let (status, told) = if name.ends_with(".in") {
        let told =
            text(&path.with_extension("repaired")).or_else(|| text(&path.with_extension("out")))?;
        let (status, told) = told.split_once('\n')?;
        (status.parse().ok(), told.to_owned())
    } else {
        (None, text(&path.with_file_name(format!("{name}.stdout")))?)
    };
    Some(Case {
        name,
        script,
        told,
        status,
    })
}

/// Returns the folder with the examples of the repository, if the crate is in it.
fn examples() -> Option<PathBuf> {
    let mut above = Path::new(env!("CARGO_MANIFEST_DIR")).ancestors();
    let found = above.find(|folder| folder.join("examples/scripts/letter.stdout").exists())?;
    Some(found.join("examples/scripts"))
}

#[test]
fn scripts_print_what_the_program_prints() {
    let given = std::env::var_os("GABROSTY_CASES").map(PathBuf::from);
    let folder = match given.or_else(examples) {
        Some(folder) => folder,
        None => return println!("there are no scripts here"),
    };
    let (mut same, mut all) = (0, 0);
    for case in cases_of(&folder) {
        let (told, status) = answer_to(Script::read(&case.script));
        all += 1;
        if told == case.told && case.status.map_or(true, |it| it == status) {
            same += 1;
            continue;
        }
        let Case {
            name, told: wanted, ..
        } = case;
        println!("--- {name}: wanted\n{wanted}--- and not\n{told}");
    }
    println!("{same} of {all} scripts are the same");
    assert!(all > 0);
    assert_eq!(same, all);
}
