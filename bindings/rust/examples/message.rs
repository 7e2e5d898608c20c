//! message EDITOR: shows two lines at the terminal, and has EDITOR, a command of the shell, edit the message of their commit in a file,
//! whose path is its `$1`. It prints the message that was accepted.
use scm_record::helpers::CrosstermInput;
use scm_record::{Event, RecordError, RecordInput, Recorder, TerminalKind};
use std::env;
use std::fs::{self, DirBuilder};
use std::io;
use std::os::unix::fs::DirBuilderExt;
use std::process::{self, Command, ExitCode};

mod two_lines;

struct Editing {
    inner: CrosstermInput,
    editor: String,
}

impl Editing {
    /// Returns what the editor makes of `message`.
    fn edit(&self, message: &str) -> io::Result<String> {
        // a folder for the user alone: an editor may follow links beside the file. One that is there already is left alone
        let folder = env::temp_dir().join(format!("message-{}", process::id()));
        DirBuilder::new().mode(0o700).create(&folder)?;
        let path = folder.join("message");
        fs::write(&path, message)?;
        let editor = ["-c", &self.editor, "sh"];
        let status = Command::new("sh").args(editor).arg(&path).status()?;
        let edited = fs::read_to_string(&path);
        fs::remove_dir_all(&folder)?;
        if !status.success() {
            let error = format!("the editor failed: {status}");
            return Err(io::Error::new(io::ErrorKind::Other, error));
        }
        edited
    }
}

impl RecordInput for Editing {
    fn terminal_kind(&self) -> TerminalKind {
        self.inner.terminal_kind()
    }

    fn next_events(&mut self) -> Result<Vec<Event>, RecordError> {
        self.inner.next_events()
    }

    fn edit_commit_message(&mut self, message: &str) -> Result<String, RecordError> {
        self.edit(message)
            .map_err(|error| RecordError::Other(error.to_string()))
    }
}

fn main() -> ExitCode {
    let mut input = Editing {
        inner: CrosstermInput,
        editor: env::args().nth(1).unwrap_or_else(|| "vi \"$1\"".to_owned()),
    };
    match Recorder::new(two_lines::state(), &mut input).run() {
        Ok(state) => {
            println!("{}", state.commits[0].message.as_deref().unwrap_or(""));
            ExitCode::SUCCESS
        }
        Err(error) => {
            eprintln!("message: {error}");
            ExitCode::FAILURE
        }
    }
}
