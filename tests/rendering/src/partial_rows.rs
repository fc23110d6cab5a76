//! Requests to stores, and templates with partials.
use crate::given::no_names;
use crate::kinds::{Eager, Kind, Lazy, OnDemand, add, source_of, store_of};
use crate::languages::plain_language;
use liquid_core::parser::{Language, Meant, ParseBlock, ParseFilter, ParseTag};
use liquid_core::partials::{
    EagerCompiler, InMemorySource, LazyStore, PartialSource, unknown_partial,
};
use liquid_core::runtime::{Renderable, Template};
use liquid_core::{Error, Filter, PartialStore};
use rows::{Line, holds, is_text};
use serde_json::Value as Json;
use std::alloc::{AllocError, Global};
use std::borrow::CowStr;
use std::rc::Rc;
use std::test::Fail;

/// Templates with partials.
pub(crate) const ROWS: &str =
    r#"{"partials": [["p", "x{% inc p %}"]], "template": "{% inc p %}", "depth": 3, "written": "xxx", "error": "liquid: Partials nest too deep\n"}
{"partials": [["p", "x{% inc p %}"]], "template": "{% inc q %}", "depth": 32, "written": "", "error": "liquid: Unknown partial-template\n  with:\n    requested partial=q\n    available partials=p\n"}
{"partials": [["p", "x{% inc p %}"]], "template": "{% inc q %}", "depth": 0, "written": "", "error": "liquid: Partials nest too deep\n"}
{"partials": [["bad", "{% nope %}"]], "template": "a{% inc bad %}", "depth": 32, "written": "a", "error": "liquid: Unknown tag. (line 1, column 4)\n  with:\n    requested=nope\n    available tags=brk, inc, set\n    available blocks=box, glob, raw, sbox, swap, with\n"}
{"partials": [["q", "Q"], ["p", "P"]], "template": "{% inc q %}{% inc p %}{% inc r %}", "depth": 1, "written": "QP", "error": "liquid: Unknown partial-template\n  with:\n    requested partial=r\n    available partials=p, q\n"}
{"partials": [], "template": "{% inc p %}", "depth": 1, "written": "", "error": "liquid: Unknown partial-template\n  with:\n    requested partial=p\n    available partials=\n"}
{"partials": [["p", ""]], "template": "a{% inc p %}b", "depth": 1, "written": "ab"}
{"partials": [["p", "old"], ["p", "new"]], "template": "{% inc p %}", "depth": 1, "written": "new"}
{"partials": [["p", "{{ x }}{% set x 2 %}"]], "template": "{% set x 1 %}{% inc p %}{{ x }}", "depth": 1, "written": "12"}
{"partials": [["p", "a{% brk %}b"]], "template": "{% box %}{% inc p %}c{% endbox %}d", "depth": 1, "written": "[a]"}
{"partials": [["p", "{{ x }}"]], "template": "{% set x 1 %}a{% sbox %}{% inc p %}{% endsbox %}b", "depth": 1, "written": "a", "error": "liquid: Unknown variable\n  with:\n    requested variable=x\n", "lenient": {"written": "ab"}}
{"partials": [["a", "1{% inc b %}"], ["b", "2{% inc c %}"], ["c", "3"]], "template": "{% inc a %}{% inc c %}", "depth": 3, "written": "1233"}
{"partials": [["a", "1{% inc b %}"], ["b", "2{% inc c %}"], ["c", "3"]], "template": "{% inc a %}{% inc c %}", "depth": 2, "written": "12", "error": "liquid: Partials nest too deep\n"}
{"partials": [["p", "{% box %}x"]], "template": "{% box %}a{% inc p %}{% endbox %}", "depth": 1, "written": "[a", "error": "liquid: Unclosed block. {% endbox %} tag expected. (line 1, column 11)\n"}"#;

/// Returns `true` if a call returns a text, or has an error with this text.
fn comes_to(alloc: Global, answer: Result<String, Error>, wanted: &str) -> bool {
    match answer {
        Ok(text) => text.as_str() == wanted,
        Err(error) => is_text(error.to_string(alloc), wanted),
    }
}

/// Returns `true` if a partial by itself, over a runtime without globals, has this text, or its error has it.
fn is_shown<X, T, B>(
    alloc: Global,
    found: Result<Rc<Template<X, T, B>>, Error>,
    wanted: &str,
) -> bool
where
    X: Filter,
    T: Renderable<()>,
    B: Renderable<()>,
{
    match found {
        Ok(template) => comes_to(alloc, template.render(alloc, &mut no_names(alloc)), wanted),
        Err(error) => is_text(error.to_string(alloc), wanted),
    }
}

/// The partials that are requested.
const SOURCES: &str = r#"[["p", "P"], ["q", "Q"], ["bad", "{% nope %}"]]"#;

pub(crate) fn source(alloc: Global) -> Option<InMemorySource> {
    match Json::from_str(alloc, SOURCES) {
        Ok(partials) => source_of(alloc, &partials),
        Err(_) => None,
    }
}

/// Names that are requested one after another, with what `get` returns.
const REQUESTS: &str = r#"["p", "P"]
["q", "Q"]
["p", "P"]
["bad", "liquid: Unknown tag. (line 1, column 4)\n  with:\n    requested=nope\n    available tags=brk, inc, set\n    available blocks=box, glob, raw, sbox, swap, with\n"]
["bad", "liquid: Unknown tag. (line 1, column 4)\n  with:\n    requested=nope\n    available tags=brk, inc, set\n    available blocks=box, glob, raw, sbox, swap, with\n"]
["none", "liquid: Unknown partial-template\n  with:\n    requested partial=none\n    available partials=bad, p, q\n"]
["q", "Q"]
["", "liquid: Unknown partial-template\n  with:\n    requested partial=\n    available partials=bad, p, q\n"]
["p", "P"]"#;

/// Returns `true` if `try_get` returns the tree that has this text, or none if it is the text of an error.
fn agrees<S, X, T, B>(alloc: Global, store: &mut S, name: &str, is_tree: bool, text: &str) -> bool
where
    S: PartialStore<X, T, B>,
    X: Filter,
    T: Renderable<()>,
    B: Renderable<()>,
{
    match PartialStore::<X, T, B>::try_get(store, alloc, name) {
        Ok(Some(template)) => is_tree && is_shown(alloc, Ok(template), text),
        Ok(None) => !is_tree,
        Err(_) => false,
    }
}

/// Returns `true` if `get` returns for a name what is wanted, and `try_get` the same tree, or none for an error.
fn answers<S, X, T, B>(alloc: Global, store: &mut S, name: &str, wanted: &str) -> bool
where
    S: PartialStore<X, T, B>,
    X: Filter,
    T: Renderable<()>,
    B: Renderable<()>,
{
    let found = PartialStore::<X, T, B>::get(store, alloc, name);
    let is_tree = found.is_ok();
    is_shown(alloc, found, wanted) && agrees::<S, X, T, B>(alloc, store, name, is_tree, wanted)
}

/// Returns `true` if a store returns for a request what the row of a line says.
fn is_answered<S, X, T, B>(alloc: Global, store: &mut S, line: &str) -> bool
where
    S: PartialStore<X, T, B>,
    X: Filter,
    T: Renderable<()>,
    B: Renderable<()>,
{
    match Line::of(alloc, line) {
        Some(row) => match (row.text(0), row.text(1)) {
            (Some(name), Some(wanted)) => answers::<S, X, T, B>(alloc, store, name, wanted),
            _ => false,
        },
        None => false,
    }
}

/// Returns `true` if these are the names, with spaces between them.
pub(crate) fn are_names(alloc: Global, names: Result<Vec<&str>, AllocError>, wanted: &str) -> bool {
    match names {
        Ok(names) => is_text(names.join(alloc, " "), wanted),
        Err(_) => false,
    }
}

/// Returns `true` if the store of the sources has their names and no other.
pub(crate) fn has_its_names<S, X, T, B>(alloc: Global, store: &S) -> bool
where
    S: PartialStore<X, T, B>,
    X: Filter,
    T: Meant + Drop,
    B: Meant + Drop,
{
    PartialStore::<X, T, B>::contains(store, "bad")
        && !PartialStore::<X, T, B>::contains(store, "none")
        && are_names(
            alloc,
            PartialStore::<X, T, B>::names(store, alloc),
            "bad p q",
        )
}

/// Fails for a store of the sources that returns something else than the rows say.
fn answers_all<S, X, T, B>(alloc: Global, store: &mut S) -> Result<(), Fail>
where
    S: PartialStore<X, T, B>,
    X: Filter,
    T: Renderable<()>,
    B: Renderable<()>,
{
    for line in REQUESTS.lines() {
        if !is_answered::<S, X, T, B>(alloc, store, line) {
            return Err(Fail::new(format_args!("this request has another answer: {line}")));
        }
    }
    holds(
        has_its_names::<S, X, T, B>(alloc, store),
        "a store has its names",
    )
}

/// Fails for a kind of store that returns something else than the rows say.
fn answers_from<F, T, B, K>(alloc: Global, language: &Rc<Language<F, T, B>>) -> Result<(), Fail>
where
    F: ParseFilter,
    T: ParseTag<F>,
    B: ParseBlock<F>,
    T::Node: Renderable<()>,
    B::Node: Renderable<()>,
    K: Kind<InMemorySource, F, T, B>,
{
    match store_of::<InMemorySource, F, T, B, K>(alloc, source(alloc), language) {
        Some(mut store) => {
            answers_all::<K::Store, F::Filter, T::Node, B::Node>(alloc, &mut store)
        }
        None => Err(Fail::from("a store runs out of memory")),
    }
}

/// Fails if one of the kinds of stores returns something else than the rows say.
fn answers_from_each<F, T, B>(
    alloc: Global,
    language: Result<Rc<Language<F, T, B>>, AllocError>,
) -> Result<(), Fail>
where
    F: ParseFilter,
    T: ParseTag<F>,
    B: ParseBlock<F>,
    T::Node: Renderable<()>,
    B::Node: Renderable<()>,
{
    let language = language?;
    answers_from::<F, T, B, Eager>(alloc, &language)?;
    answers_from::<F, T, B, Lazy>(alloc, &language)?;
    answers_from::<F, T, B, OnDemand>(alloc, &language)
}

#[test]
fn requests_have_the_same_answers_from_all_stores(rt: HostRuntime) -> Result<(), Fail> {
    answers_from_each(rt.alloc(), plain_language(rt.alloc()))
}

/// Returns `true` if `try_get` returns a tree, or if it returns none and `is_tree` is false.
pub(crate) fn requests<S, X, T, B>(alloc: Global, store: &mut S, name: &str, is_tree: bool) -> bool
where
    S: PartialStore<X, T, B>,
    X: Filter,
    T: Meant + Drop,
    B: Meant + Drop,
{
    match PartialStore::<X, T, B>::try_get(store, alloc, name) {
        Ok(found) => found.is_some() == is_tree,
        Err(_) => false,
    }
}

/// Returns `true` if `get` returns a tree, or if it has an error and `is_tree` is false.
pub(crate) fn gets<S, X, T, B>(alloc: Global, store: &mut S, name: &str, is_tree: bool) -> bool
where
    S: PartialStore<X, T, B>,
    X: Filter,
    T: Meant + Drop,
    B: Meant + Drop,
{
    PartialStore::<X, T, B>::get(store, alloc, name).is_ok() == is_tree
}

/// Returns `true` if a lazy store of the sources keeps just the trees and the faults that it was asked for.
fn keeps_trees_and_faults<F, T, B>(
    alloc: Global,
    store: &mut LazyStore<InMemorySource, F, T, B>,
) -> bool
where
    F: ParseFilter,
    T: ParseTag<F>,
    B: ParseBlock<F>,
{
    !store.is_kept("p")
        && !store.is_kept("bad")
        && gets::<_, F::Filter, T::Node, B::Node>(alloc, store, "bad", false)
        && store.is_kept("bad")
        && gets::<_, F::Filter, T::Node, B::Node>(alloc, store, "none", false)
        && !store.is_kept("none")
        && requests::<_, F::Filter, T::Node, B::Node>(alloc, store, "p", true)
        && store.is_kept("p")
        && !store.is_kept("q")
}

/// Returns `true` if a lazy store in a language keeps just that.
fn is_lazy<F, T, B>(alloc: Global, language: Result<Rc<Language<F, T, B>>, AllocError>) -> bool
where
    F: ParseFilter,
    T: ParseTag<F>,
    B: ParseBlock<F>,
{
    match source(alloc).zip(language.ok()) {
        Some((source, language)) => match Lazy::store(alloc, source, language) {
            Ok(mut store) => keeps_trees_and_faults(alloc, &mut store),
            Err(_) => false,
        },
        None => false,
    }
}

#[test]
fn a_lazy_store_keeps_trees_and_faults(rt: HostRuntime) -> Result<(), Fail> {
    holds(
        is_lazy(rt.alloc(), plain_language(rt.alloc())),
        "a lazy store keeps the trees and the faults that it was asked for",
    )
}

const UNKNOWN: &str =
    "liquid: Unknown partial-template\n  with:\n    requested partial=q\n    available partials=p\n";

/// Returns `true` if a request returns a text, or has an error with this text.
fn is_answer(alloc: Global, answer: Result<CowStr<'_>, Error>, wanted: &str) -> bool {
    match answer {
        Ok(text) => text.as_str() == wanted,
        Err(error) => is_text(error.to_string(alloc), wanted),
    }
}

/// Returns `true` if a source has `p` alone, with the new text.
fn has_the_new_text<S: PartialSource>(alloc: Global, source: &S) -> bool {
    source.contains("p")
        && !source.contains("q")
        && are_names(alloc, PartialSource::names(source, alloc), "p")
        && is_answer(alloc, PartialSource::get(source, alloc, "p"), "new")
        && matches!(PartialSource::try_get(source, alloc, "q"), Ok(None))
        && is_answer(alloc, PartialSource::get(source, alloc, "q"), UNKNOWN)
}

/// Returns `true` if an empty source has no names, and a text takes the place of an earlier one.
fn is_changed_in_place(alloc: Global, compiler: &mut EagerCompiler<InMemorySource>) -> bool {
    let is_empty = match compiler.source().names(alloc) {
        Ok(names) => names.is_empty(),
        Err(_) => false,
    };
    let texts = compiler.source_mut();
    is_empty
        && matches!(add(alloc, texts, "p", "old"), Ok(false))
        && matches!(add(alloc, texts, "p", "new"), Ok(true))
}

/// Returns `true` if the copy of a source has `p` alone, with the new text.
fn is_copied(alloc: Global, source: &InMemorySource) -> bool {
    match InMemorySource::clone(source) {
        Ok(copy) => has_the_new_text(alloc, &copy),
        Err(_) => false,
    }
}

#[test]
fn a_source_is_a_map_of_texts(rt: HostRuntime) -> Result<(), Fail> {
    let alloc = rt.alloc();
    let mut compiler: EagerCompiler<InMemorySource> = EagerCompiler::empty(alloc);
    let is_changed = is_changed_in_place(alloc, &mut compiler);
    let is_copied = is_copied(alloc, compiler.source());
    let unknown = unknown_partial(alloc, "q", &["p"]).to_string(alloc);
    holds(
        is_changed && is_copied && is_text(unknown, UNKNOWN),
        "a text takes the place of an earlier one",
    )
}
