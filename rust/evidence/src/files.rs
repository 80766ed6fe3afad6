//! The files of the repository on disk.

use std::fs;
use std::io;
use std::path::{Path, PathBuf};

/// The root of the repository.
fn root() -> PathBuf {
    Path::new(env!("CARGO_MANIFEST_DIR")).join("../..")
}

/// The text of a file by its path from the root, if there is such a file.
pub fn text_of(file: &str) -> Option<String> {
    let bytes = fs::read(root().join(file)).ok()?;
    Some(String::from_utf8_lossy(&bytes).into_owned())
}

/// The crates' files of antt and Rattle: their paths from the root, and their texts. What the
/// toolchain made in a crate's folder `out` is left out.
pub fn crate_texts() -> io::Result<Vec<(String, String)>> {
    let root = root();
    let files = files_below(&root.join("crates"))?;
    let paths = files
        .iter()
        .filter_map(|file| file.strip_prefix(&root).ok());
    let texts = paths
        .filter(|path| is_source(path) && !is_made(path))
        .map(|path| Ok((path.display().to_string(), text(&root, path)?)));
    texts.collect()
}

/// Whether a file is antt's or Rattle's.
fn is_source(path: &Path) -> bool {
    let extension = path.extension();
    extension.is_some_and(|extension| extension == "antt" || extension == "rt")
}

/// Whether a file stands in the folder `out` of a crate.
fn is_made(path: &Path) -> bool {
    path.iter().nth(2).is_some_and(|folder| folder == "out")
}

/// The text of a file below a folder.
fn text(folder: &Path, path: &Path) -> io::Result<String> {
    fs::read_to_string(folder.join(path))
        .map_err(|error| io::Error::new(error.kind(), format!("{}: {error}", path.display())))
}

/// All files below a folder.
fn files_below(folder: &Path) -> io::Result<Vec<PathBuf>> {
    let mut files = Vec::new();
    for entry in fs::read_dir(folder)? {
        let path = entry?.path();
        if path.is_dir() {
            files.extend(files_below(&path)?);
        } else {
            files.push(path);
        }
    }
    Ok(files)
}

#[cfg(test)]
mod tests {
    use super::*;

    #[test]
    fn what_the_toolchain_made_is_told_from_what_was_written() {
        let made = |path: &str| is_made(Path::new(path));
        assert!(made("crates/a/out/rlib/a.rlib/lang/antt/specs.antt"));
        assert!(!made("crates/a/specs/out.antt") && !made("crates/a/src/out/lib.rt"));
    }
}
