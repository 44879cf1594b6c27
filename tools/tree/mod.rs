// What the tools that read the project have in common: its files, and what a line of a crate's source declares. No tool uses all of it.

#![allow(dead_code)]

use std::collections::{BTreeMap, BTreeSet};
use std::fs;
use std::path::Path;
use std::process::Command;

// The folders that a build makes.
pub const BUILT: [&str; 2] = ["target", "build"];
const QUALIFIERS: [&str; 4] = ["pub", "pub(crate)", "extern", "\"C\""];
const ITEMS: [&str; 7] = ["fn", "struct", "enum", "trait", "type", "const", "static"];
// How far in the members of a block stand, as `rt fmt` lays out.
pub const MEMBER_INDENT: usize = 4;

// The files by their path from the root, with their text; none of what a build makes, and none at the root that git knows and does not track.
pub struct Tree(pub BTreeMap<String, String>);

impl Tree {
    // Of the project, from its root.
    pub fn read() -> Tree {
        let mut files = BTreeMap::new();
        add_files(Path::new(""), &mut files);
        if let Some(tracked) = tracked() {
            files.retain(|path, _| path.contains('/') || tracked.contains(path));
        }
        Tree(files)
    }

    pub fn of(files: &[(&str, &str)]) -> Tree {
        Tree(files.iter().map(|(path, text)| (path.to_string(), text.to_string())).collect())
    }

    pub fn text(&self, path: &str) -> &str {
        self.0.get(path).map_or("", String::as_str)
    }

    // The lines of crates.txt: a crate and those it needs. Behind the name may stand staticlib.
    pub fn crates(&self) -> Vec<(&str, &str)> {
        let lines = self.text("crates.txt").lines().filter(|line| !line.starts_with('#'));
        lines.filter_map(|line| line.split_once(':')).map(|(name, needed)| (first_identifier(name.trim()), needed)).collect()
    }
}

// The files that git tracks, where there is a git that knows of any.
fn tracked() -> Option<BTreeSet<String>> {
    let listed = Command::new("git").args(["ls-files", "-z"]).output().ok()?;
    let paths: BTreeSet<String> = String::from_utf8_lossy(&listed.stdout).split_terminator('\0').map(str::to_string).collect();
    (!paths.is_empty()).then_some(paths)
}

fn add_files(folder: &Path, files: &mut BTreeMap<String, String>) {
    let listed = if folder.as_os_str().is_empty() { Path::new(".") } else { folder };
    for entry in fs::read_dir(listed).into_iter().flatten().flatten() {
        let path = folder.join(entry.file_name());
        let name = path.to_string_lossy().to_string();
        let made = name == ".git" || BUILT.contains(&name.as_str()) || (name.starts_with("crates/") && path.ends_with("out"));
        if made {
            continue;
        }
        if path.is_dir() {
            add_files(&path, files);
        } else {
            files.insert(name, String::from_utf8_lossy(&fs::read(&path).unwrap_or_default()).to_string());
        }
    }
}

pub fn first_identifier(text: &str) -> &str {
    text.split(|c: char| !c.is_alphanumeric() && c != '_').next().unwrap_or("")
}

pub fn indent(line: &str) -> usize {
    line.len() - line.trim_start().len()
}

// What a line of a source file declares, if anything: one of ITEMS, and its name.
pub fn declaration(line: &str) -> Option<(&str, &str)> {
    let mut words = line.split_whitespace().skip_while(|word| QUALIFIERS.contains(word));
    let kind = words.next().filter(|kind| ITEMS.contains(kind))?;
    words.next().map(|word| (kind, first_identifier(word)))
}

// The type whose impl begins on a line, of a trait or not, if any.
pub fn implemented(line: &str) -> Option<&str> {
    let rest = line.strip_prefix("impl")?;
    let rest = if rest.starts_with('<') { rest.split_once("> ")?.1 } else { rest };
    Some(first_identifier(rest.split_once(" for ").map_or(rest, |(_, of)| of).trim_start()))
}
