//! The stored cases of the clip program: a text a file, and what the program prints for all, by document 01's prose.

use crate::answer::answer;
use crate::case_texts;
use crate::places::in_repository;
use std::path::{Path, PathBuf};
use std::{fs, io};

/// Where the program that runs them has them.
pub fn folder() -> PathBuf {
    in_repository("crates/clip_cases")
}

/// The files of the folder, by their paths in it.
fn files() -> Vec<(PathBuf, Vec<u8>)> {
    let texts = case_texts::all();
    let args: String = texts.iter().map(|(name, _)| format!("{name}\n")).collect();
    let stdout: String = texts.iter().map(|(name, text)| format!("{name}:\n{}", answer(text).printed)).collect();
    let all = [("args".into(), args.into_bytes()), ("stdout".into(), stdout.into_bytes())];
    let data = texts.into_iter().map(|(name, text)| (Path::new("data").join(name), text));
    all.into_iter().chain(data).collect()
}

pub fn store(folder: &Path) -> bool {
    let files = files();
    match write(folder, &files) {
        Ok(()) => println!("{} files stored in {}", files.len(), folder.display()),
        Err(ref error) => println!("the cases could not be stored: {error}"),
    }
    check(folder)
}

fn write(folder: &Path, files: &[(PathBuf, Vec<u8>)]) -> io::Result<()> {
    fs::create_dir_all(folder.join("data"))?;
    files.iter().try_for_each(|(path, content)| fs::write(folder.join(path), content))
}

/// False where a file is another than the one that is made, or missing.
pub fn check(folder: &Path) -> bool {
    let files = files();
    let differs = |(path, content): &&(PathBuf, Vec<u8>)| fs::read(folder.join(path)).ok().as_ref() != Some(content);
    let wrong: Vec<_> = files.iter().filter(differs).collect();
    println!("{} files of stored cases compared, {} differ", files.len(), wrong.len());
    if let Some((path, _)) = wrong.first() {
        println!("DIFFERENCE in {}", folder.join(path).display());
    }
    wrong.is_empty()
}
