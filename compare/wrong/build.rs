//! Writes the wrong copies of ../src/paper.rs that mutations.txt lists.

use std::path::Path;
use std::{env, fs};

/// An entry of mutations.txt: a line `name: what is wrong`, then pairs of lines, the text that is replaced and what stands there instead.
fn main() {
    println!("cargo:rerun-if-changed=mutations.txt");
    println!("cargo:rerun-if-changed=../src/paper.rs");
    let paper = fs::read_to_string("../src/paper.rs").unwrap();
    let list = fs::read_to_string("mutations.txt").unwrap();
    let (mut modules, mut table) = (String::new(), String::new());
    for entry in list.split("\n\n").map(str::trim).filter(|entry| !entry.is_empty() && !entry.starts_with('#')) {
        let lines: Vec<&str> = entry.lines().map(str::trim).collect();
        let (name, what) = lines[0].split_once(": ").expect("mutations.txt: a name and what is wrong");
        let module = name.replace('-', "_");
        modules += &format!("#[allow(unused, dead_code)]\nmod {module} {{\n{}\n}}\n", edited(&paper, name, &lines[1..]));
        table += &format!("    ({name:?}, {what:?}, {module}::CALLS),\n");
    }
    let text = format!("{modules}\npub const WRONG: &[(&str, &str, Calls)] = &[\n{table}];\n");
    fs::write(Path::new(&env::var_os("OUT_DIR").unwrap()).join("wrong.rs"), text).unwrap();
}

/// The text with every pair's first line replaced by its second. Each first line must stand there exactly once.
fn edited(text: &str, name: &str, pairs: &[&str]) -> String {
    assert!(!pairs.is_empty() && pairs.len() % 2 == 0, "mutations.txt, {name}: lines in pairs");
    let mut places: Vec<(usize, &str, &str)> = Vec::new();
    for pair in pairs.chunks(2) {
        let found: Vec<usize> = text.match_indices(pair[0]).map(|found| found.0).collect();
        assert_eq!(found.len(), 1, "mutations.txt, {name}: `{}` must stand in paper.rs exactly once", pair[0]);
        places.push((found[0], pair[0], pair[1]));
    }
    places.sort_by_key(|place| std::cmp::Reverse(place.0));
    let mut edited = text.to_string();
    for (at, old, new) in places {
        edited.replace_range(at..at + old.len(), new);
    }
    edited
}
