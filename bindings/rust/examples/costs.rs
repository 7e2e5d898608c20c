//! costs COUNT: measures a run over a file of COUNT added lines: until it is accepted at once, and for each key; and the most
//! memory that the program had.
use scm_record::helpers::TestingInput;
use scm_record::{
    ChangeType, Event, File, FileMode, RecordState, Recorder, Section, SectionChangedLine,
};
use std::borrow::Cow;
use std::path::Path;
use std::time::{Duration, Instant};

const KEYS: u32 = 2000;

fn state(texts: &[String]) -> RecordState<'_> {
    let lines = texts.iter().map(|text| SectionChangedLine {
        is_checked: false,
        change_type: ChangeType::Added,
        line: Cow::Borrowed(text),
    });
    let lines = lines.collect();
    let file = File {
        old_path: None,
        path: Cow::Borrowed(Path::new("text")),
        file_mode: FileMode::FILE_DEFAULT,
        sections: vec![Section::Changed { lines }],
    };
    RecordState {
        files: vec![file],
        ..RecordState::default()
    }
}

/// Returns the least time of five runs that handle `count` events before the state is accepted.
fn time(texts: &[String], event: &Event, count: u32) -> Duration {
    let run = |_| {
        let mut events = vec![Event::FocusInner, Event::FocusInner];
        events.extend((0..count).map(|_| event.clone()));
        events.push(Event::QuitAccept);
        let (state, mut input) = (state(texts), TestingInput::new(80, 24, events));
        let begin = Instant::now();
        let accepted = Recorder::new(state, &mut input).run();
        assert!(accepted.is_ok());
        begin.elapsed()
    };
    (0..5).map(run).min().unwrap_or_default()
}

fn main() {
    let argument = std::env::args().nth(1).and_then(|it| it.parse().ok());
    let count: usize = argument.unwrap_or(100_000);
    let texts: Vec<String> = (0..count)
        .map(|it| format!("the line {it} of a file\n"))
        .collect();
    let start = time(&texts, &Event::None, 0);
    println!("{count} lines: {start:?} until it is accepted at once");
    for event in [Event::FocusNext, Event::ToggleItem, Event::ScrollDown] {
        let key = (time(&texts, &event, KEYS).saturating_sub(start)) / KEYS;
        println!("{key:?} for {event:?}");
    }
    let status = std::fs::read_to_string("/proc/self/status").unwrap_or_default();
    let most = status.lines().find(|line| line.starts_with("VmHWM:"));
    println!("{}", most.unwrap_or("VmHWM is not known"));
}
