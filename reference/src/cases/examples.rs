//! The example plans next to this package, as a person hands them to the programs.

use crate::call::{Call, CENSUS, JOIN, TRAIL};
use std::fs;
use std::path::{Path, PathBuf};

/// Every input of the directory: where it stands, which call it is for, and its bytes. An input's
/// name ends in the call's, and what is asked of it may follow as a number.
pub fn plans() -> impl Iterator<Item = (PathBuf, &'static Call, Vec<u8>)> {
    let directory = Path::new(env!("CARGO_MANIFEST_DIR")).join("../examples");
    let files = fs::read_dir(directory).expect("the directory of examples");
    files.filter_map(|file| {
        let path = file.expect("an entry").path();
        let ending = path.extension()?.to_str()?;
        let call = Call::named(ending.trim_end_matches(|digit: char| digit.is_ascii_digit()))?;
        let input = fs::read(&path).expect("an input");
        Some((path, call, input))
    })
}

/// What an example is about. Each has a group of its own, so that one more leaves those of the
/// others as they are.
#[derive(Clone, Copy, PartialEq, Eq)]
pub enum About {
    Judging,
    Census,
    Trail,
    Joining,
}

impl About {
    /// About the census are its inputs and all those of the plan that shows what it is for; about
    /// joining are its inputs and those of networks that were joined or edited.
    pub fn of(path: &Path, call: &Call) -> About {
        let name = path.file_name().and_then(|name| name.to_str());
        let silent = name.is_some_and(|name| name.starts_with("silent-feed."));
        let made = |name: &str| name.contains(".joined.") || name.contains(".edited.");
        match call.number {
            number if number == JOIN.number || name.is_some_and(made) => About::Joining,
            number if number == TRAIL.number => About::Trail,
            number if number == CENSUS.number || silent => About::Census,
            _ => About::Judging,
        }
    }
}
