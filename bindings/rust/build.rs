//! Finds the static library for C, and links it.
//!
//! The library is `libgabrosty.a`, or `libscm_c.a` as a clone builds it, and beside it is `liblibc_c.a`, which asks the C library for
//! memory. They are in the folder `GABROSTY_LIB_DIR`; or where pkg-config finds `gabrosty`, which `tools/install` of the repository
//! installs; or in a folder above this crate: of an installation, or of a clone in which `tools/build` has built them.
use std::env;
use std::os::unix::fs::MetadataExt;
use std::path::{Path, PathBuf};
use std::process::Command;

/// The names of the library: as it is installed, and as a clone builds it.
const LIBRARIES: [&str; 2] = ["gabrosty", "scm_c"];
const MEMORY: &str = "liblibc_c.a";
/// Where a clone builds the library.
const BUILT: &str = "crates/scm_c/out";
/// The file that says of an installed library that nothing was proved.
const UNPROVED: &str = "gabrosty/unproved";
const MISSING: &str = "the library for C is not found. An archive of Gabrosty has it beside this crate: there the crate is lib/gabrosty/rust, and finds
the library by itself. For a crate elsewhere, set GABROSTY_LIB_DIR to the folder lib of the archive, or of what it installed.

Without an archive, one of these commands makes the library, in a clone of Gabrosty:

    tools/build            builds it for a crate in that clone
    tools/install ~/.local   installs it: then set PKG_CONFIG_PATH to ~/.local/lib/pkgconfig, or GABROSTY_LIB_DIR to ~/.local/lib

To check or document the crate without the library, set GABROSTY_LIB_DIR to no text.";

fn main() {
    for variable in ["GABROSTY_LIB_DIR", "PKG_CONFIG", "PKG_CONFIG_PATH"] {
        println!("cargo:rerun-if-env-changed={variable}");
    }
    match env::var_os("GABROSTY_LIB_DIR") {
        Some(folder) if folder.is_empty() => {}
        Some(folder) => link(&PathBuf::from(folder)),
        None => link(&found_folder().unwrap_or_else(|| fail(MISSING))),
    }
}

/// Prints `words` for the user, and ends.
fn fail(words: &str) -> ! {
    eprintln!("\ngabrosty: {words}\n");
    std::process::exit(1);
}

/// Links the library in `folder`.
fn link(folder: &Path) {
    let name = library_in(folder).unwrap_or_else(|| {
        fail(&format!(
            "there is no libgabrosty.a in {}: {MISSING}",
            folder.display()
        ))
    });
    let of_memory = [Some(folder.to_owned()), toolchain_folder()];
    let of_memory = of_memory
        .into_iter()
        .flatten()
        .find(|place| place.join(MEMORY).exists());
    let of_memory = of_memory.unwrap_or_else(|| {
        fail(&format!(
            "there is no {MEMORY} in {}, and no toolchain on the path (`rt doc`) that has it. `tools/install PREFIX` puts it beside the library.",
            folder.display()
        ))
    });
    // no words of another user; and each line is a warning: cargo would obey a second line as it is
    let (said, library) = (folder.join(UNPROVED), file_of(folder, name));
    if [Some(0), owner_of(&library)].contains(&owner_of(&said)) {
        for line in words_in(&said).lines() {
            println!("cargo:warning=gabrosty: {line}");
        }
    }
    println!("cargo:rerun-if-changed={}", library.display());
    for (place, name) in [(folder, name), (&of_memory, "libc_c")] {
        println!("cargo:rustc-link-search=native={}", place.display());
        println!("cargo:rustc-link-lib=static={name}");
    }
}

/// Returns the text of a file, or nothing if there is none.
fn words_in(path: &Path) -> String {
    std::fs::read_to_string(path).unwrap_or_default()
}

/// Returns the file of a static library in `folder`.
fn file_of(folder: &Path, name: &str) -> PathBuf {
    folder.join(format!("lib{name}.a"))
}

/// Returns the name of the library that is in `folder`.
fn library_in(folder: &Path) -> Option<&'static str> {
    LIBRARIES
        .into_iter()
        .find(|name| file_of(folder, name).exists())
}

/// Returns the number of the user who owns a file, a link or a folder, if one is there.
fn owner_of(path: &Path) -> Option<u32> {
    std::fs::symlink_metadata(path)
        .ok()
        .map(|found| found.uid())
}

/// Returns whether `place` has a library of the user `owner` or of root, and none of another user: others may put theirs into a folder above
/// this crate, as into `/tmp`. The folders of a clone that lead to it have to be so, too: they could lead elsewhere when it is linked.
fn has_own_library(place: &Path, owner: Option<u32>) -> bool {
    let is_of_another =
        |path: &Path| owner_of(path).map_or(false, |found| found != 0 && Some(found) != owner);
    let folders = if place.ends_with(BUILT) { 3 } else { 1 };
    library_in(place).map_or(false, |name| {
        let files = [file_of(place, name), place.join(MEMORY)];
        let mut found = place
            .ancestors()
            .take(folders)
            .chain(files.iter().map(|file| file.as_path()));
        !found.any(is_of_another)
    })
}

/// Returns the folder of the library: of the installed one, or of one in a folder above this crate.
fn found_folder() -> Option<PathBuf> {
    let crate_folder = PathBuf::from(env::var_os("CARGO_MANIFEST_DIR")?);
    let owner = owner_of(&crate_folder);
    let above = crate_folder
        .ancestors()
        .flat_map(|place| [place.join(BUILT), place.to_owned()]);
    installed_folder()
        .filter(|place| library_in(place).is_some())
        .or_else(|| {
            above
                .into_iter()
                .find(|place| has_own_library(place, owner))
        })
}

/// Returns the folder that pkg-config names.
fn installed_folder() -> Option<PathBuf> {
    let program = env::var_os("PKG_CONFIG").unwrap_or_else(|| "pkg-config".into());
    answer_of(Command::new(program).args(["--variable=libdir", "gabrosty"])).map(PathBuf::from)
}

/// Returns the folder of the toolchain that has the functions for memory.
fn toolchain_folder() -> Option<PathBuf> {
    let page = answer_of(Command::new("rt").arg("doc"))?;
    Some(Path::new(&page).parent()?.join("c"))
}

/// Returns the line that a command prints, if it succeeds.
fn answer_of(command: &mut Command) -> Option<String> {
    let output = command
        .output()
        .ok()
        .filter(|output| output.status.success())?;
    let line = String::from_utf8(output.stdout).ok()?.trim().to_owned();
    (!line.is_empty()).then_some(line)
}
