//! Pages that go to files, and several pages in one call.
use crate::runs::{add_names, has_bytes, holds_over};
use liquid_files::InMemoryFolder;
use rows::{Line, rows_hold};
use serde_json::Value as Json;
use std::alloc::Global;
use std::test::Fail;

/// One page that goes to a file: the words, a path, the bytes of its file after the run, or `null` for no file, the
/// status, and what the output and the error stream have.
const ONE: &str = r#"["render -o new a g.json", "new", "A1", 0, "", ""]
["render a g.json -o old", "old", "A1", 0, "", ""]
["render sub/b -o out/ g.json d", "out/b", "B1P", 0, "", ""]
["render -o old bad g.json", "old", "old", 1, "", "liquid: Unknown variable\n  with:\n    requested variable=y\n"]
["render -o new bad g.json", "new", null, 1, "", "liquid: Unknown variable\n  with:\n    requested variable=y\n"]
["render -o new none g.json", "new", null, 3, "", "liquid: cannot read none\n"]
["render -o out a g.json", "out", null, 1, "", "liquid: cannot write out\n"]
["render --explain -o out a g.json", "out", null, 1, "", "liquid: cannot write out\n  rendering a\n"]
["render -o a a g.json", "a", "A{{ x }}", 1, "", "liquid: cannot write a: the page is made from it\n"]
["render -o g.json a g.json", "g.json", "{\"x\": 1}", 1, "", "liquid: cannot write g.json: the page is made from it\n"]
["render --explain -o sub/ sub/b g.json d", "sub/b", "B{{ x }}{% include \"p\" %}", 1, "", "liquid: cannot write sub/b: the page is made from it\n  rendering sub/b\n"]
["render -o bad bad g.json", "bad", "C{{ y }}D", 1, "", "liquid: Unknown variable\n  with:\n    requested variable=y\n"]
["render -o - a g.json", "-", null, 2, "", "USAGE"]
["render -o x -o y a g.json", "x", null, 2, "", "USAGE"]"#;

/// Several pages, in rows of the same places.
const SEVERAL: &str = r#"["render --globals g.json -o out a", "out/a", "A1", 0, "", ""]
["render --partials d -o out/ --globals g.json a sub/b", "out/b", "B1P", 0, "", ""]
["render --lenient --globals g.json -o out -- bad a", "out/bad", "CD", 0, "", ""]
["render --globals g.json -o out none bad a", "out/a", "A1", 3, "", "liquid: cannot read none\nliquid: status 3: none\nliquid: Unknown variable\n  with:\n    requested variable=y\nliquid: status 1: bad\n"]
["render --globals g.json -o out bad a", "out/bad", "old page", 1, "", "liquid: Unknown variable\n  with:\n    requested variable=y\nliquid: status 1: bad\n"]
["render --globals g.json --partials d -o sub a sub/b", "sub/b", "B{{ x }}{% include \"p\" %}", 1, "", "liquid: cannot write sub/b: the page is made from it\nliquid: status 1: sub/b\n"]
["render --globals g.json --partials d -o sub sub/b a", "sub/a", "A1", 1, "", "liquid: cannot write sub/b: the page is made from it\nliquid: status 1: sub/b\n"]
["render --globals none.json -o out a", "out/a", null, 3, "", "liquid: cannot read none.json\n"]
["render --globals list.json -o out none", "out/none", null, 3, "", "liquid: Object cannot be an array.\n"]
["render --globals g.json --partials e -o out none", "out/none", null, 3, "", "liquid: cannot read e\n"]
["render --globals g.json -o out sub/b other/b", "out/b", null, 2, "", "USAGE"]
["render --globals g.json a", "a", "A{{ x }}", 2, "", "USAGE"]
["render --globals g.json -o out", "out/a", null, 2, "", "USAGE"]
["render --globals g.json -o out a --lenient", "out/a", null, 2, "", "USAGE"]"#;

/// Adds the templates and the partial. Returns `false` if memory runs out.
fn add_templates(alloc: Global, files: &mut InMemoryFolder) -> bool {
    files.add(alloc, "a", b"A{{ x }}").is_ok()
        && files
            .add(alloc, "sub/b", b"B{{ x }}{% include \"p\" %}")
            .is_ok()
        && files.add(alloc, "bad", b"C{{ y }}D").is_ok()
        && files.add(alloc, "unread", b"{{ x | }}").is_ok()
        && files.add(alloc, "bytes", b"\xff").is_ok()
        && files.add(alloc, "d/p", b"P").is_ok()
        && add_names(alloc, files, "p")
}

/// Adds the globals and the pages of an earlier run. Returns `false` if memory runs out.
fn add_others(alloc: Global, files: &mut InMemoryFolder) -> bool {
    files.add(alloc, "g.json", b"{\"x\": 1}").is_ok()
        && files.add(alloc, "list.json", b"[1]").is_ok()
        && files.add(alloc, "old", b"old").is_ok()
        && files.add(alloc, "out/bad", b"old page").is_ok()
        && files.add_list(alloc, "out", Vec::new(alloc)).is_ok()
}

/// Returns `true` if these are the bytes at a place of a row, or if there are none and the place has `null`.
fn has_content(alloc: Global, wanted: Option<&Json>, bytes: Option<&[u8]>) -> bool {
    match bytes {
        Some(bytes) => has_bytes(alloc, wanted, bytes),
        None => matches!(wanted, Some(Json::Null)),
    }
}

/// Returns `true` if the file of a row is as the row says.
fn has_file(alloc: Global, row: &Line, files: &InMemoryFolder) -> bool {
    match row.text(1) {
        Some(path) => has_content(alloc, row.member(2), files.bytes(path)),
        None => false,
    }
}

/// Returns `true` if the words of a row have its answer, and its file is as it says.
fn row_holds(alloc: Global, row: &Line) -> bool {
    let mut files = InMemoryFolder::new(alloc);
    add_templates(alloc, &mut files)
        && add_others(alloc, &mut files)
        && holds_over(alloc, row, &mut files)
        && has_file(alloc, row, &files)
}

#[test]
fn a_page_goes_to_a_file_if_it_is_whole(rt: HostRuntime) -> Result<(), Fail> {
    rows_hold(rt.alloc(), ONE, row_holds)
}

#[test]
fn each_of_several_pages_has_its_file(rt: HostRuntime) -> Result<(), Fail> {
    rows_hold(rt.alloc(), SEVERAL, row_holds)
}
