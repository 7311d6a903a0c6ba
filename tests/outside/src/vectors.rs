//! The vectors of the repository.

use std::path::{Path, PathBuf};

/// The files of a folder of vectors whose names end so.
pub fn vectors(folder: &str, end: &str) -> Vec<PathBuf> {
    let folder = Path::new(env!("CARGO_MANIFEST_DIR")).join("../../vectors").join(folder);
    let entries = std::fs::read_dir(folder).expect("the folder is in the repository");
    let paths = entries.map(|entry| entry.expect("an entry of the folder").path());
    let mut files: Vec<PathBuf> =
        paths.filter(|path| path.extension().is_some_and(|found| found == end)).collect();
    files.sort();
    files
}

/// The text of a vector's file with this ending.
pub fn text(path: &Path, end: &str) -> Vec<u8> {
    std::fs::read(path.with_extension(end)).expect("a file of a vector")
}

/// Rules and steps of an input as the program takes it.
pub fn parts(input: &[u8]) -> Option<(&[u8], &[u8])> {
    const LINE: &[u8] = b"(steps)\n";
    let place = input.windows(LINE.len()).position(|window| window == LINE)?;
    Some((&input[..place], &input[place + LINE.len()..]))
}
