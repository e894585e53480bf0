//! Writes the recorded cases of `crates/trees_replayed` anew, into the folder that is named: the end of its `stdin`, the trees, and of its `stdout`,
//! what the original answered. What stands before the first recorded case stays as it is.
use compare::commands;
use compare::recorded::{answered, asked, cases, Case, MARK};
use std::fs;
use std::path::{Path, PathBuf};

/// A file with the text of all cases in the place of those that it has.
fn replace(file: &Path, cases: &[Case], text: fn(usize, &Case) -> String) {
    let old = fs::read_to_string(file).expect("a file of cases");
    let mut new: String = old.split_inclusive('\n').take_while(|line| !line.starts_with(MARK)).collect();
    for (place, case) in cases.iter().enumerate() {
        new += &text(place + 1, case);
    }
    fs::write(file, &new).expect("the file written");
    println!("{}: {} bytes, {} before", file.display(), new.len(), old.len());
}

/// Both files.
fn write(folder: &Path) {
    let cases = cases();
    replace(&folder.join("stdin"), &cases, asked);
    replace(&folder.join("stdout"), &cases, answered);
    println!("{} cases", cases.len());
}

fn main() {
    let words = commands::words("usage: recorded FOLDER", |words| words.len() == 1);
    commands::run(move || write(&PathBuf::from(&words[0])));
}
