//! Pairs of faults: the first in the order of reading is reported, and nothing is written.
use crate::runs::{add_names, add_pages, holds_over};
use liquid_files::InMemoryFolder;
use rows::{Line, rows_hold};
use std::alloc::Global;
use std::test::Fail;

/// Rows as `runs` describes them, over a folder `d` with a file that is not text.
const ROWS: &str =
    r#"["render t g.json none", "{{ x | }}", "{}", 3, "", "liquid: cannot read none\n"]
["render t g.json d", "{{ x | }}", "{}", 3, "", "liquid: cannot read d/p\n"]
["render t g.json none", "{{ x | }}", "[1]", 3, "", "liquid: Object cannot be an array.\n"]
["render t g.json none", "x", "[1]", 3, "", "liquid: Object cannot be an array.\n"]
["render t g.json d", "x", "[1]", 3, "", "liquid: Object cannot be an array.\n"]
["render t g.json none", "{{ x | }}", "{", 3, "", "liquid: bad JSON in g.json\n"]
["render t g.json d", "x", "{", 3, "", "liquid: bad JSON in g.json\n"]
["render t g.json none", "x", [255], 3, "", "liquid: cannot read g.json\n"]
["render t g.json none", [255], "{", 3, "", "liquid: cannot read t\n"]
["render t g.json none", [255], [255], 3, "", "liquid: cannot read t\n"]
["render t none.json", [255], "{}", 3, "", "liquid: cannot read t\n"]
["render none none.json none", "x", "{}", 3, "", "liquid: cannot read none\n"]
["render t g.json none", "x", "{", 3, "", "liquid: bad JSON in g.json\n"]
["render t g.json none", "x", "{\"a\": 1.5}", 3, "", "liquid: Fractional number\n"]
["render t g.json d", "{{ x | }}", [255], 3, "", "liquid: cannot read g.json\n"]
["render t none.json none", "{{ x | }}", "{}", 3, "", "liquid: cannot read none.json\n"]
["render t none.json none", [255], "{}", 3, "", "liquid: cannot read t\n"]
["render t g.json d", [255], "[1]", 3, "", "liquid: cannot read t\n"]
["render t g.json none", [255], "{}", 3, "", "liquid: cannot read t\n"]
["render t", [255], "{", 2, "", "USAGE"]"#;

/// Returns `true` if the words of a row have its answer.
fn row_holds(alloc: Global, row: &Line) -> bool {
    let mut files = InMemoryFolder::new(alloc);
    add_pages(alloc, &mut files, row)
        && files.add(alloc, "d/p", b"\xff").is_ok()
        && add_names(alloc, &mut files, "p")
        && holds_over(alloc, row, &mut files)
}

#[test]
fn the_first_fault_is_reported(rt: HostRuntime) -> Result<(), Fail> {
    rows_hold(rt.alloc(), ROWS, row_holds)
}
