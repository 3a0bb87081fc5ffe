//! The repository's list of crates, a line each: `NAME: DEPENDENCY DEPENDENCY`, with `staticlib` behind the name of a static library.

use std::collections::HashMap;
use std::fs;
use std::io;
use std::path::{Path, PathBuf};

/// The list's name in the top folder.
pub const LIST: &str = "crates.txt";

/// Where `rt` keeps what it has proved and built of a crate, in the crate's folder.
const KEPT: &str = "out";

/// A crate's folder.
pub fn folder(top: &Path, name: &str) -> PathBuf {
    top.join("crates").join(name)
}

/// The static library that stands over a library, for callers in C.
pub fn static_library(name: &str) -> String {
    format!("{name}_c")
}

/// What stands in a crate's folder, in the order of the names, but not what `rt` keeps there.
pub fn sources(folder: &Path) -> io::Result<Vec<PathBuf>> {
    let mut paths = fs::read_dir(folder)?.map(|entry| Ok(entry?.path())).collect::<io::Result<Vec<_>>>()?;
    paths.retain(|path| path.file_name() != Some(KEPT.as_ref()));
    paths.sort();
    Ok(paths)
}

/// The list's lines of these crates alone.
pub fn lines_of(list: &str, names: &[String]) -> String {
    let entries = list.lines().filter(|line| entry(line).is_some_and(|(name, _)| names.iter().any(|known| known == name)));
    entries.map(|line| format!("{line}\n")).collect()
}

/// The crates that these are built from, themselves included, in the order in which `rt` proves them for one after the other.
pub fn needed(top: &Path, names: &[String]) -> Result<Vec<String>, String> {
    let list = top.join(LIST);
    let text = fs::read_to_string(&list).map_err(|error| format!("{}: {error}.", list.display()))?;
    let below = parse(&text);
    let mut order = Vec::new();
    for name in names {
        if !below.contains_key(name.as_str()) {
            return Err(format!("{} does not list {name}.", list.display()));
        }
        visit(name, &below, &mut Vec::new(), &mut order);
    }
    Ok(order.into_iter().map(str::to_string).collect())
}

/// Each crate's dependencies.
fn parse(text: &str) -> HashMap<&str, Vec<&str>> {
    text.lines().filter_map(entry).collect()
}

/// The crate of a line, and its dependencies. What follows `#` is a comment.
fn entry(line: &str) -> Option<(&str, Vec<&str>)> {
    let (name, below) = line.split('#').next()?.split_once(':')?;
    Some((name.split_whitespace().next()?, below.split_whitespace().collect()))
}

/// Adds a crate behind those below it. A library of the toolchain is not in the list, and a crate that is on the way to itself is
/// left for `rt` to refuse.
fn visit<'a>(name: &'a str, below: &HashMap<&'a str, Vec<&'a str>>, way: &mut Vec<&'a str>, order: &mut Vec<&'a str>) {
    if way.contains(&name) || order.contains(&name) {
        return;
    }
    let Some(next) = below.get(name) else { return };
    way.push(name);
    for name in next {
        visit(name, below, way, order);
    }
    way.pop();
    order.push(name);
}
