//! Copies the plain form (`compare/src`) and puts a call of the wrong forms at
//! each spot where a reading differs.
//!
//! `edits/NAME.txt` has the edits of `NAME.rs`, a blank line between two. An
//! edit's lines begin as in a diff: ` ` stays, `-` goes, `+` comes, `#` is a
//! comment. What stays or goes, taken together, must stand in the file exactly
//! once; it may begin or end inside a line.

use std::{env, fs};

fn main() {
    let root = env::var("CARGO_MANIFEST_DIR").expect("cargo sets it");
    let out = env::var("OUT_DIR").expect("cargo sets it");
    println!("cargo:rerun-if-changed=edits");
    let mut modules = String::new();
    for name in names(&format!("{root}/edits")) {
        let source = format!("{root}/../src/{name}.rs");
        println!("cargo:rerun-if-changed={source}");
        let edits = read(&format!("{root}/edits/{name}.txt"));
        let edits = edits.split("\n\n").filter(|edit| !edit.trim().is_empty());
        let text = edits.fold(read(&source), |text, edit| edited(&name, &text, edit));
        let copy = format!("{out}/{name}.rs");
        write(&copy, &text);
        modules += &format!("#[path = {copy:?}]\npub mod {name};\n");
    }
    write(&format!("{out}/plain.rs"), &modules);
}

/// The files that have edits.
fn names(folder: &str) -> Vec<String> {
    let entries = fs::read_dir(folder).unwrap_or_else(|error| panic!("{folder}: {error}"));
    let files = entries.map(|entry| entry.expect("an entry").file_name());
    let mut names: Vec<String> = files
        .filter_map(|file| Some(file.to_str()?.strip_suffix(".txt")?.to_string()))
        .collect();
    names.sort();
    names
}

/// The text after one edit.
fn edited(name: &str, text: &str, edit: &str) -> String {
    let old = lines(edit, [' ', '-']);
    let new = lines(edit, [' ', '+']);
    let count = text.matches(&old).count();
    if old.is_empty() || count != 1 {
        panic!("edits/{name}.txt: this stands {count} times in src/{name}.rs, not once:\n{old}");
    }
    text.replace(&old, &new)
}

/// The lines that begin with one of two marks, without the marks.
fn lines(edit: &str, marks: [char; 2]) -> String {
    let lines = edit.lines().filter_map(|line| line.strip_prefix(marks));
    lines.collect::<Vec<&str>>().join("\n")
}

fn read(path: &str) -> String {
    fs::read_to_string(path).unwrap_or_else(|error| panic!("{path}: {error}"))
}

fn write(path: &str, text: &str) {
    fs::write(path, text).unwrap_or_else(|error| panic!("{path}: {error}"));
}
