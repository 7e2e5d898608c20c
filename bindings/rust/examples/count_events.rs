//! count_events [panic]: shows two lines at the terminal, and prints how many events were read, and of how many reads. It wraps
//! the terminal's input, as a tool does that looks at events itself, or edits messages. With `panic` it panics at the
//! second read, to see the terminal given back.
use scm_record::helpers::CrosstermInput;
use scm_record::{Event, RecordError, RecordInput, Recorder, TerminalKind};
use std::process::ExitCode;

mod two_lines;

struct Counting {
    inner: CrosstermInput,
    reads: usize,
    events: usize,
    panics: bool,
}

impl RecordInput for Counting {
    fn terminal_kind(&self) -> TerminalKind {
        self.inner.terminal_kind()
    }

    fn next_events(&mut self) -> Result<Vec<Event>, RecordError> {
        let events = self.inner.next_events()?;
        self.reads += 1;
        self.events += events.len();
        if self.panics && self.reads > 1 {
            panic!("as it was asked for");
        }
        Ok(events)
    }

    fn edit_commit_message(&mut self, message: &str) -> Result<String, RecordError> {
        Ok(message.to_uppercase())
    }
}

fn main() -> ExitCode {
    let mut input = Counting {
        inner: CrosstermInput,
        reads: 0,
        events: 0,
        panics: std::env::args().nth(1).as_deref() == Some("panic"),
    };
    let ended = Recorder::new(two_lines::state(), &mut input).run();
    println!("{} events of {} reads", input.events, input.reads);
    match ended {
        Ok(state) => {
            println!(
                "{}: {:?}",
                state.commits[0].message.as_deref().unwrap_or(""),
                state.files[0].tristate()
            );
            ExitCode::SUCCESS
        }
        Err(error) => {
            println!("{error}");
            ExitCode::FAILURE
        }
    }
}
