//! The files below `samples/` are those that `examples/make_samples` makes, and no others but the text that speaks of them.

mod common;
#[allow(dead_code)]
#[path = "../examples/make_samples/main.rs"]
mod make_samples;

use std::fs;
use std::path::{Path, PathBuf};

/// Every file below a folder, by its path from there.
fn files(folder: &Path, from: &Path, out: &mut Vec<PathBuf>) {
    for entry in fs::read_dir(folder).unwrap() {
        let path = entry.unwrap().path();
        if path.is_dir() {
            files(&path, from, out);
        } else {
            out.push(path.strip_prefix(from).unwrap().to_path_buf());
        }
    }
}

#[test]
fn the_samples_are_those_made() {
    let folder = common::root().join("samples");
    let made = make_samples::samples().unwrap();
    for (name, bytes) in &made {
        assert_eq!(&fs::read(folder.join(name)).unwrap(), bytes, "{}", name.display());
    }
    let mut there = Vec::new();
    files(&folder, &folder, &mut there);
    let mut names: Vec<_> = made.into_iter().map(|(name, _)| name).collect();
    names.push("README.md".into());
    there.sort();
    names.sort();
    assert_eq!(there, names);
}
