//! Partials with an ending.
use crate::runs::{add_pages, add_split, holds_over};
use liquid_files::InMemoryFolder;
use rows::{Line, rows_hold};
use std::alloc::Global;
use std::test::Fail;

/// Rows as `runs` describes them, over the files of the folder `d` too.
const ROWS: &str =
    r#"["render --ext .liquid t g.json d", "{% include \"nav\" %}", "{}", 0, "[nav item]", ""]
["render t g.json d --ext .liquid", "{% include \"nav.liquid\" %}", "{}", 1, "", "liquid: Unknown partial-template\n  with:\n    requested partial=nav.liquid\n    available partials=nav, nav/item\nfrom: include nav.liquid\n"]
["render --ext .none t g.json d", "x", "{}", 0, "x", ""]
["render --ext .png t g.json d", "x", "{}", 3, "", "liquid: cannot read d/logo.png\n"]
["render --ext liquid t g.json d", "x", "{}", 2, "", "USAGE"]
["render --ext ./x t g.json d", "x", "{}", 2, "", "USAGE"]"#;

/// Adds the files below the folder `d`. The ones that are not text would be a fault if they were read. Returns `false` if
/// memory runs out.
fn add_partials(alloc: Global, files: &mut InMemoryFolder) -> bool {
    files
        .add(alloc, "d/nav.liquid", b"[nav {% include \"nav/item\" %}]")
        .is_ok()
        && files.add(alloc, "d/nav/item.liquid", b"item").is_ok()
        && files.add(alloc, "d/logo.png", b"\xff").is_ok()
        && files.add(alloc, "d/nav/notes.txt", b"\xff").is_ok()
}

/// Adds the list of these files. Returns `false` if memory runs out.
fn add_tree(alloc: Global, files: &mut InMemoryFolder) -> bool {
    let mut names = Vec::new(alloc);
    if !add_split(
        alloc,
        &mut names,
        "nav/notes.txt nav/item.liquid nav.liquid logo.png",
    ) {
        return false;
    }
    files.add_tree(alloc, "d", names).is_ok()
}

/// Returns `true` if the words of a row have its answer.
fn row_holds(alloc: Global, row: &Line) -> bool {
    let mut files = InMemoryFolder::new(alloc);
    add_pages(alloc, &mut files, row)
        && add_partials(alloc, &mut files)
        && add_tree(alloc, &mut files)
        && holds_over(alloc, row, &mut files)
}

#[test]
fn only_files_with_the_ending_are_partials(rt: HostRuntime) -> Result<(), Fail> {
    rows_hold(rt.alloc(), ROWS, row_holds)
}
