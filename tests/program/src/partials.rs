//! Partials from a folder.
use crate::runs::{add_file, add_names, add_pages, add_words, holds_over};
use liquid_files::InMemoryFolder;
use rows::{Line, rows_hold};
use serde_json::Value as Json;
use std::alloc::Global;
use std::test::Fail;

/// Adds the files of the folder `d`. Returns `false` if memory runs out.
fn add_folder(alloc: Global, files: &mut InMemoryFolder) -> bool {
    files
        .add(alloc, "d/p", b"[{{ x }}{% include \"q\" %}]")
        .is_ok()
        && files.add(alloc, "d/q", b"q").is_ok()
        && files.add(alloc, "d/bad", b"{% nope %}").is_ok()
        && files.add(alloc, "d/\u{e9}", b"accent").is_ok()
        && add_names(alloc, files, "q p \u{e9} bad")
}

/// Returns `true` if the words of a row have its answer over this folder.
fn row_holds(alloc: Global, row: &Line) -> bool {
    let mut files = InMemoryFolder::new(alloc);
    add_pages(alloc, &mut files, row)
        && add_folder(alloc, &mut files)
        && holds_over(alloc, row, &mut files)
}

/// Rows as `runs` describes them, over this folder.
const ROWS: &str = r#"["render t g.json d", "a{% include \"p\" %}b", "{\"x\": 1}", 0, "a[1q]b", ""]
["render t g.json d", "no partial", "{\"x\": 1}", 0, "no partial", ""]
["render t g.json d", "a{% include \"r\" %}", "{\"x\": 1}", 1, "a", "liquid: Unknown partial-template\n  with:\n    requested partial=r\n    available partials=bad, p, q, é\nfrom: include r\n"]
["render t g.json d", "a{% include \"bad\" %}", "{\"x\": 1}", 1, "a", "liquid: Unknown tag. (line 1, column 4)\n  with:\n    requested=nope\n    available tags=assign, break, continue, include, increment, render\n    available blocks=for, if, raw\nfrom: include bad\n"]
["render t g.json d", "{% include \"q\" %}{% render \"q\" %}", "{\"x\": 1}", 0, "qq", ""]"#;

#[test]
fn files_of_a_folder_are_partials(rt: HostRuntime) -> Result<(), Fail> {
    rows_hold(rt.alloc(), ROWS, row_holds)
}

/// A file that is not text, a file that no longer exists, the first of both in byte order, and no file. After the six
/// places of any row come the files, each with its path and its bytes, and the names in the folder `d`.
const FOLDERS: &str =
    r#"["render t g.json d", "x", "{\"x\": 1}", 3, "", "liquid: cannot read d/z\n", [["d/p", "p"], ["d/z", [255]]], ["z", "p"]]
["render t g.json d", "x", "{\"x\": 1}", 3, "", "liquid: cannot read d/gone\n", [["d/p", "p"]], ["p", "gone"]]
["render t g.json d", "x", "{\"x\": 1}", 3, "", "liquid: cannot read d/a\n", [["d/b", [255]], ["d/c", "c"]], ["c", "b", "a"]]
["render t g.json d", "x", "{\"x\": 1}", 0, "x", "", [], []]"#;

/// Adds a file of a row. Returns `false` if it is not a path with bytes, or if memory runs out.
fn add_listed(alloc: Global, files: &mut InMemoryFolder, file: &Json) -> bool {
    match file.get(0).and_then(Json::as_str) {
        Some(path) => add_file(alloc, files, path, file.get(1)),
        None => false,
    }
}

/// Adds the files of a row. Returns `false` if one of them could not be added.
fn add_all(alloc: Global, files: &mut InMemoryFolder, list: &Vec<Json>) -> bool {
    for file in list {
        if !add_listed(alloc, files, file) {
            return false;
        }
    }
    true
}

/// Adds the files of a row, if it has a list of them. Returns `false` if one of them could not be added.
fn add_files(alloc: Global, files: &mut InMemoryFolder, row: &Line) -> bool {
    match row.list(6) {
        Some(list) => add_all(alloc, files, list),
        None => false,
    }
}

/// Adds the list of the names of a row. Returns `false` if it has none, or if memory runs out.
fn add_own_names(alloc: Global, files: &mut InMemoryFolder, row: &Line) -> bool {
    let mut names = Vec::new(alloc);
    if !add_words(alloc, &mut names, row.member(7)) {
        return false;
    }
    files.add_list(alloc, "d", names).is_ok()
}

/// Returns `true` if the words of a row have its answer over its own folder.
fn folder_holds(alloc: Global, row: &Line) -> bool {
    let mut files = InMemoryFolder::new(alloc);
    add_pages(alloc, &mut files, row)
        && add_files(alloc, &mut files, row)
        && add_own_names(alloc, &mut files, row)
        && holds_over(alloc, row, &mut files)
}

#[test]
fn all_files_of_a_folder_are_read(rt: HostRuntime) -> Result<(), Fail> {
    rows_hold(rt.alloc(), FOLDERS, folder_holds)
}

/// A row in the sandbox, over the folder of the first table.
const SANDBOXED: &str =
    r#"["render --sandboxed t g.json d", "{% assign x = 2 %}{{ x }}{% include \"p\" %}", "{\"x\": 1}", 0, "1[1q]", ""]"#;

#[test]
fn partials_are_in_the_sandbox(rt: HostRuntime) -> Result<(), Fail> {
    rows_hold(rt.alloc(), SANDBOXED, row_holds)
}
