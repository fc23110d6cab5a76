//! The files of a site: which are rendered and which are copied, within which layouts, and where they go.
//!
//! What renders a text here gives the text back, with the title of the page and the content in it, and fails for a text that
//! ends in `fails`.
use liquid_files::InMemoryFolder;
use liquid_scalar::Scalar;
use liquid_value::{Object, SharedObject, Value};
use page_site::{
    Engine, Failure, Item, PartialNames, Partials, Site, Source, Tally, add_items, find_clash,
    read_partials, write_items,
};
use rows::{Line, rows_hold};
use serde_json::Value as Json;
use std::alloc::{AllocError, Global};
use std::collections::BTreeMap;
use std::rc::Rc;
use std::test::Fail;

/// Gives texts back.
#[derive(Drop)]
struct Echo;

fn text_at<'v>(names: &'v Object, name: &str) -> &'v str {
    match names.get(name) {
        Some(Value::Scalar(Scalar::Str(text))) => text.as_str(),
        _ => "",
    }
}

fn title_in(names: &Object) -> &str {
    match names.get("page") {
        Some(Value::Object(page)) => text_at(page.as_object(), "title"),
        _ => "",
    }
}

fn echo(alloc: Global, text: &str, names: &Object) -> Result<String, AllocError> {
    let (title, content) = (title_in(names), text_at(names, "content"));
    format!(in alloc; "{text}{title}<{content}>")
}

impl Engine for Echo {
    ghost answers = { λ _ _ _ _. Unit {0} };

    fn render(
        &mut self,
        alloc: Global,
        source: Source<'_>,
        names: Object,
    ) -> Result<String, Failure> {
        if source.text.ends_with("fails") {
            let message = format!(in alloc; "line {}\n", source.lines_before.saturating_add(1));
            return match message {
                Ok(message) => Err(Failure::Error(message)),
                Err(_) => Err(Failure::Memory),
            };
        }
        echo(alloc, source.text, &names).map_err(|_| Failure::Memory)
    }
}

pub fn add_files(alloc: Global, files: &mut InMemoryFolder, list: &Vec<Json>) -> bool {
    for file in list {
        let (path, text) = (
            file.get(0).and_then(Json::as_str),
            file.get(1).and_then(Json::as_str),
        );
        let is_added = match path.zip(text) {
            Some((path, text)) => files.add(alloc, path, text.as_bytes()).is_ok(),
            None => false,
        };
        if !is_added {
            return false;
        }
    }
    true
}

fn names_in(alloc: Global, list: Option<&Vec<Json>>) -> Option<Vec<String>> {
    let mut names = Vec::new(alloc);
    for name in list? {
        names
            .push(String::from_str(alloc, name.as_str()?).ok()?)
            .ok()?;
    }
    Some(names)
}

pub fn add_trees(alloc: Global, files: &mut InMemoryFolder, list: &Vec<Json>) -> bool {
    for tree in list {
        let path = tree.get(0).and_then(Json::as_str);
        let names = names_in(alloc, tree.get(1).and_then(Json::as_array));
        let is_added = match path.zip(names) {
            Some((path, names)) => files.add_tree(alloc, path, names).is_ok(),
            None => false,
        };
        if !is_added {
            return false;
        }
    }
    true
}

pub fn has_files(files: &InMemoryFolder, list: &Vec<Json>) -> bool {
    for file in list {
        let path = file.get(0).and_then(Json::as_str).unwrap_or("");
        let wanted = file.get(1).and_then(Json::as_str);
        let has = match files.bytes(path) {
            Some(bytes) => wanted.is_some_and(|text| text.as_bytes() == bytes),
            None => wanted.is_none(),
        };
        if !has {
            return false;
        }
    }
    true
}

fn partials_of(alloc: Global, files: &mut InMemoryFolder, folder: &str) -> Option<Partials> {
    if folder.is_empty() {
        return Some(BTreeMap::new(alloc));
    }
    read_partials(alloc, files, PartialNames::WithoutEnding, folder).ok()
}

/// Returns what is printed about the site that a row's words name, or which path two of its pages go to.
fn written(alloc: Global, row: &Line, files: &mut InMemoryFolder) -> Option<String> {
    let mut items: Vec<Item> = Vec::new(alloc);
    for word in row.list(2)? {
        add_items(alloc, files, "o/", word.as_str()?, &mut items).ok()?;
    }
    if let Some(clash) = find_clash(alloc, items.as_slice()).ok()? {
        return format!(in alloc; "two go to {clash}").ok();
    }
    let partials = partials_of(alloc, files, row.text(3)?)?;
    let names = SharedObject::shared(alloc, Object::new(alloc)).ok()?;
    let partials = Rc::new(alloc, partials).ok()?;
    let site = Site { names, partials };
    let mut tally = Tally::new(items.len());
    let mut err = Vec::new(alloc);
    let status = write_items(
        alloc,
        &site,
        &mut Echo,
        files,
        items.as_slice(),
        &mut tally,
        &mut err,
    );
    let err = String::from_utf8(err).ok()?;
    format!(in alloc; "{status} {err}").ok()
}

fn site_holds(alloc: Global, row: &Line) -> bool {
    let mut files = InMemoryFolder::new(alloc);
    let (Some(given), Some(trees), Some(left)) = (row.list(0), row.list(1), row.list(5)) else {
        return false;
    };
    if !add_files(alloc, &mut files, given) || !add_trees(alloc, &mut files, trees) {
        return false;
    }
    match written(alloc, row, &mut files).zip(row.text(4)) {
        Some((said, wanted)) => said.as_str() == wanted && has_files(&files, left),
        None => false,
    }
}

// The files, the folders, the words, the folder of the partials, what is printed, and the files that are there then.
const SITES: &str = r#"[[["t", "x"]], [], ["t"], "", "0 ", [["o/t", "x<>"]]]
[[["d/t.html.liquid", "x"]], [], ["d/t.html.liquid"], "", "0 ", [["o/t.html", "x<>"]]]
[[["s/a.liquid", "x"], ["s/b.css", "y"], ["s/c/d", "---\ntitle: T\n---\nz"]], [["s", ["a.liquid", "b.css", "c/d"]]], ["s"], "", "0 ", [["o/a", "x<>"], ["o/b.css", "y"], ["o/c/d", "zT<>"]]]
[[["s/a.liquid", "x"], ["s/a", "y"]], [["s", ["a.liquid", "a"]]], ["s"], "", "two go to o/a", [["o/a"]]]
[[["t", "---\nlayout: l\ntitle: T\n---\nx"], ["p/layouts/l.liquid", "L"]], [["p", ["layouts/l.liquid"]]], ["t"], "p", "0 ", [["o/t", "LT<xT<>>"]]]
[[["t", "---\nlayout: l\n---\nx"], ["p/layouts/l", "---\nlayout: m\n---\nL"], ["p/layouts/m", "M"]], [["p", ["layouts/l", "layouts/m"]]], ["t"], "p", "0 ", [["o/t", "M<L<x<>>>"]]]
[[["t", "---\nlayout: l\n---\nx"], ["p/layouts/l", "---\nlayout: l\n---\nL"]], [["p", ["layouts/l"]]], ["t"], "p", "1 liquid: t: the layout 'l' is within itself\n", [["o/t"]]]
[[["t", "---\nlayout: l\n---\nx"]], [], ["t"], "", "1 liquid: t: there is no layout 'l'\n", [["o/t"]]]
[[["t", "---\na: 1\n---\nfails"], ["u", "x"]], [], ["t", "u"], "", "1 line 4\n", [["o/t"], ["o/u", "x<>"]]]
[[["t", "---\n---\n"], ["u", "+++\ntitle = \"T\"\n+++\nx"]], [], ["t", "u"], "", "0 ", [["o/t", "<>"], ["o/u", "xT<>"]]]
[[["t", "\ufeff---\ntitle: T\n---\nx"], ["u", "\ufeffx"]], [], ["t", "u"], "", "0 ", [["o/t", "xT<>"], ["o/u", "x<>"]]]
[[], [], ["gone"], "", "3 liquid: cannot read gone: there is no such file or folder\n", [["o/gone"]]]"#;

#[test]
fn files_of_a_site_are_written(rt: HostRuntime) -> Result<(), Fail> {
    rows_hold(rt.alloc(), SITES, site_holds)
}

// Front matter: its text, and what is printed.
const FRONT: &str =
    r#"[[["t", "---\ntitle: T # c\n---\nx"]], [], ["t"], "", "3 liquid: t: line 2: such a text has to be between quotes\n", []]
[[["t", "---\ntitle: \"a: b\"\nn: 1\nl: [1, 'x']\n# c\n\n---\nx"]], [], ["t"], "", "0 ", [["o/t", "xa: b<>"]]]
[[["t", "---\ntitle\n---\nx"]], [], ["t"], "", "3 liquid: t: line 2: a line is 'name: value' or a comment\n", []]
[[["t", "---\na:1\n---\nx"]], [], ["t"], "", "3 liquid: t: line 2: there is no space after the colon\n", []]
[[["t", "---\n a: 1\n---\nx"]], [], ["t"], "", "3 liquid: t: line 2: a name has letters, digits, '_' and '-', and no space before it\n", []]
[[["t", "---\na: [1\n---\nx"]], [], ["t"], "", "3 liquid: t: line 2: a list ends with ']'\n", []]
[[["t", "---\na: \"x\n---\nx"]], [], ["t"], "", "3 liquid: t: line 2: a text in quotes ends with its second quote and has no backslash\n", []]
[[["t", "---\na: 1\nx"]], [], ["t"], "", "3 liquid: t: line 1: no line ends this front matter\n", []]"#;

#[test]
fn front_matter_is_read_or_named(rt: HostRuntime) -> Result<(), Fail> {
    rows_hold(rt.alloc(), FRONT, site_holds)
}
