//! choose OLD NEW OUT: shows how one file becomes another at the terminal, whatever their bytes are, and writes what was selected to a
//! third file. The library does all that the terminal needs, by one call.
use scm_record::session::{End, Session, Side, Version};
use scm_record::FileMode;
use std::error::Error;
use std::process::ExitCode;
use std::{env, fs};

/// Writes what the user selects. Returns whether it was accepted.
fn choose(old: &str, new: &str, out: &str) -> Result<bool, Box<dyn Error>> {
    let mode = FileMode::FILE_DEFAULT;
    let (old, bytes) = (&fs::read(old)?, &fs::read(new)?);
    let mut session = Session::new(false)?;
    let old = Version { mode, bytes: old };
    session.add_versions(new, None, old, Version { mode, bytes })?;
    session.begin(80, 24)?;
    session.run("Choose")?;
    let is_accepted = session.end() == Some(End::Accepted);
    if is_accepted {
        fs::write(out, session.side_bytes(0, Side::Selected)?)?;
    }
    Ok(is_accepted)
}

fn main() -> ExitCode {
    let words: Vec<String> = env::args().skip(1).collect();
    if words.len() != 3 {
        eprintln!("usage: choose OLD NEW OUT");
        return ExitCode::from(2);
    }
    match choose(&words[0], &words[1], &words[2]) {
        Ok(true) => ExitCode::SUCCESS,
        Ok(false) => ExitCode::FAILURE,
        Err(error) => {
            eprintln!("choose: {error}");
            ExitCode::from(2)
        }
    }
}
