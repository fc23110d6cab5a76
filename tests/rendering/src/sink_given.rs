//! The rows, and the runtime that they are rendered over.
use crate::given::{is_added, text_at};
use crate::pages::{Page, has_error};
use liquid_core::Error;
use liquid_core::model::{Object, Value, ValueRender};
use liquid_core::parser::{Language, ParseBlock, ParseFilter, ParseTag, parse};
use liquid_core::runtime::{BuiltRuntime, Runtime, RuntimeBuilder, Seen, Template};
use rows::{Line, is_text};
use serde_json::Value as Json;
use std::alloc::Global;
use std::rc::Rc;
use test_plugins::partial::OnePartial;

/// A store of one partial in a language.
type Store<F, T, B> = OnePartial<
    <F as ParseFilter>::Filter,
    <T as ParseTag<F>>::Node,
    <B as ParseBlock<F>>::Node,
>;

/// A template, what it writes, the text of its error, and what `g` renders as after that many bytes, `-` if it has no
/// value. An empty value makes no put, and a global frame keeps what was assigned in it.
pub(crate) const ROWS: &str = r#"["Hello", "Hello", "", [[0, "-"]]]
["{% box %}ab{% endbox %}", "[ab]", "", [[0, "-"]]]
["{% set g 1 %}ab{% set g 2 %}", "ab", "", [[0, "1"], [2, "2"]]]
["{{ x }}{{ y }}", "", "", [[0, "-"]]]
["{{ x }}a{{ y }}{% set g 4 %}{{ x }}", "a", "", [[0, "-"], [1, "4"]]]
["a{{ none }}b", "a", "liquid: Unknown variable\n  with:\n    requested variable=none\n", [[0, "-"]]]
["{% with z 1 %}a{% sbox %}b{% set g 5 %}c{% endsbox %}{{ z }}{% endwith %}d", "abc1d", "", [[0, "-"], [2, "5"]]]
["{% swap %}ab{% set g 1 %}{% mid %}cd{% set g 2 %}{% endswap %}", "cdab", "", [[0, "-"], [2, "2"], [4, "1"]]]
["{% glob %}a{% set g 1 %}b{% endglob %}c", "abc", "", [[0, "-"]]]
["{% raw %}{{{% endraw %}é€", "{{é€", "", [[0, "-"]]]
["a{% inc p %}b", "ap7b", "", [[0, "-"], [3, "3"]]]
["{% box %}{{ 5 | fail }}{% endbox %}", "[", "liquid: bad\nfrom: Filter error\n  with:\n    filter=fail\n    input=5\n", [[0, "-"]]]
["a{% box %}b{% brk %}{% endbox %}c", "a[b]", "", [[0, "-"]]]"#;

/// Returns the template of a text in a language, or `None` if it has an error.
pub(crate) fn page<F, T, B>(
    alloc: Global,
    language: &Language<F, T, B>,
    text: &str,
) -> Option<Page<F, T, B>>
where
    F: ParseFilter,
    T: ParseTag<F>,
    B: ParseBlock<F>,
{
    match parse(alloc, text, language) {
        Ok(nodes) => Some(Template::new(nodes)),
        Err(_) => None,
    }
}

/// Returns the template of a row in a language.
pub(crate) fn page_of<F, T, B>(
    alloc: Global,
    language: &Language<F, T, B>,
    row: &Line,
) -> Option<Page<F, T, B>>
where
    F: ParseFilter,
    T: ParseTag<F>,
    B: ParseBlock<F>,
{
    match row.text(0) {
        Some(text) => page(alloc, language, text),
        None => None,
    }
}

/// Returns what the templates see, an empty text and nil, or `None` if memory runs out.
pub(crate) fn names(alloc: Global) -> Option<Object> {
    let mut names = Object::new(alloc);
    let are_added = is_added(alloc, &mut names, "x", Value::scalar(String::new(alloc)))
        && is_added(alloc, &mut names, "y", Value::Nil);
    if are_added { Some(names) } else { None }
}

/// Returns the partial `p` in a language.
fn partial<F, T, B>(alloc: Global, language: &Language<F, T, B>) -> Option<Rc<Page<F, T, B>>>
where
    F: ParseFilter,
    T: ParseTag<F>,
    B: ParseBlock<F>,
{
    match page(alloc, language, "p{{ 7 }}{% set g 3 %}") {
        Some(page) => Rc::new(alloc, page).ok(),
        None => None,
    }
}

/// Returns a store of the partial `p` in a language.
fn store<F, T, B>(alloc: Global, language: &Language<F, T, B>) -> Option<Store<F, T, B>>
where
    F: ParseFilter,
    T: ParseTag<F>,
    B: ParseBlock<F>,
{
    match String::from_str(alloc, "p")
        .ok()
        .zip(partial(alloc, language))
    {
        Some((name, template)) => Some(OnePartial { name, template }),
        None => None,
    }
}

/// Returns a runtime of names and a store.
fn built<P: Drop>(
    alloc: Global,
    names: Option<Object>,
    store: Option<P>,
) -> Option<BuiltRuntime<(), P>> {
    match names.zip(store) {
        Some((names, store)) => Some(
            RuntimeBuilder::new(alloc)
                .set_globals(names)
                .set_partials(store)
                .build(),
        ),
        None => None,
    }
}

/// Returns a runtime of the names of the templates with the partial `p` in a language, or `None` if memory runs out.
pub(crate) fn runtime<F, T, B>(
    alloc: Global,
    language: &Language<F, T, B>,
) -> Option<BuiltRuntime<(), Store<F, T, B>>>
where
    F: ParseFilter,
    T: ParseTag<F>,
    B: ParseBlock<F>,
{
    built(alloc, names(alloc), store(alloc, language))
}

/// Returns a number of bytes, and what a step of a row says about `g` after that many.
fn entry(step: &Json) -> Option<(u64, &str)> {
    match step.get(0) {
        Some(bytes) => bytes.as_u64().zip(text_at(step, 1)),
        None => None,
    }
}

/// Returns what the row says about `g` after that many bytes: its last entry for as many bytes or fewer.
fn wanted(row: &Line, bytes: u64) -> Option<&str> {
    let mut wanted = None;
    for step in row.list(3)? {
        let (from, text) = entry(step)?;
        if from <= bytes {
            wanted = Some(text);
        }
    }
    wanted
}

/// Returns `true` if `g` is what the row leaves after that many bytes.
fn is_left<R: Runtime>(alloc: Global, row: &Line, bytes: usize, runtime: &R) -> bool {
    match (wanted(row, bytes as u64), runtime.try_get_name("g")) {
        (Some(wanted), Some(Seen::Lent(value))) => is_text(
            ValueRender::new(value).to_string(alloc),
            wanted,
        ),
        (wanted, None) => wanted == Some("-"),
        _ => false,
    }
}

/// Returns `true` if a call has the error of a row whose sink has no fault in its first bytes: the sink's if it fails.
fn is_refused(
    alloc: Global,
    row: &Line,
    text: &str,
    bytes: usize,
    answer: &Result<(), Error>,
) -> bool {
    if bytes < text.len() {
        has_error(alloc, answer, "liquid: Failed to render\n")
    } else {
        match row.text(2) {
            Some(error) => has_error(alloc, answer, error),
            None => false,
        }
    }
}

/// Returns `true` if a call over a sink that has no fault in its first bytes leaves just those of the row's text, has
/// the error that the row and the sink give, and leaves what was assigned up to there.
pub(crate) fn is_beginning<R: Runtime>(
    alloc: Global,
    row: &Line,
    bytes: usize,
    taken: &[u8],
    answer: &Result<(), Error>,
    runtime: &R,
) -> bool {
    match row.text(1) {
        Some(text) => {
            text.as_bytes().get(..bytes) == Some(taken)
                && is_refused(alloc, row, text, bytes, answer)
                && is_left(alloc, row, bytes, runtime)
        }
        None => false,
    }
}
