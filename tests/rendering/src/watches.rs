//! A page under a watch: what is written while the watch is open, up to the first turn or piece after it closes.
use crate::pages::{Page, has_error};
use crate::sink_given::{page_of, runtime};
use liquid_core::parser::{Language, ParseBlock, ParseFilter, ParseTag};
use liquid_core::runtime::{Runtime, Template};
use liquid_core::{Discreet, Filter, GatedSink, PartialStore, TextSink, Watch, Watched};
use rows::{Line, rows_hold};
use serde_json::Value as Json;
use std::alloc::{AllocError, Global};
use std::test::Fail;
use test_plugins::languages::language;

/// A template, its turns, and what it writes if the watch is open at no request, at one and so on up to all. A turn is
/// a request, and so is a piece that isn't empty.
const ROWS: &str = r#"["", 0, [""]]
["Hello", 0, ["", "Hello"]]
["a{% box %}b{% endbox %}c{% set g 1 %}", 4, ["", "a", "a", "a[", "a[", "a[b", "a[b", "a[b]", "a[b]c", "a[b]c"]]"#;

/// A watch that is open for a number of requests.
#[derive(Drop)]
struct OpenFor {
    requests: usize,
}

impl Watch for OpenFor {
    ghost answers = { λ before after answer. Unit {0} };

    fn is_open(&mut self) -> bool {
        match self.requests.checked_sub(1) {
            Some(left) => {
                self.requests = left;
                true
            }
            None => false,
        }
    }
}

/// Returns `true` if a page under a watch writes this, with an error if it is not the whole page. The turns that pass
/// are those of the whole page, and the bytes are those that are written.
fn writes<X, T, B, R>(
    alloc: Global,
    page: &Template<X, T, B>,
    around: Option<R>,
    watch: OpenFor,
    text: &str,
    turns: Option<u64>,
) -> bool
where
    X: Filter,
    T: Discreet<()>,
    B: Discreet<()>,
    R: Runtime<Register = ()> + Drop,
    R::Store: PartialStore<X, T, B>,
{
    let Some(mut around) = around else {
        return false;
    };
    let mut sink = GatedSink::new(TextSink::new(alloc), Watched::new(watch));
    let answer = page.render_within(alloc, &mut sink, &mut around);
    let error = if turns.is_some() {
        ""
    } else {
        "liquid: Rendering was stopped\n"
    };
    turns.is_none_or(|turns| sink.gate().turns_passed() == turns)
        && sink.gate().bytes_passed() == text.len() as u64
        && sink.sink().as_bytes() == text.as_bytes()
        && has_error(alloc, &answer, error)
}

/// Returns `true` if each of these texts is written if the watch is open at as many requests as its place says.
fn each_is_written<F, T, B>(
    alloc: Global,
    language: &Language<F, T, B>,
    page: &Page<F, T, B>,
    texts: &Vec<Json>,
    turns: u64,
) -> bool
where
    F: ParseFilter,
    T: ParseTag<F>,
    B: ParseBlock<F>,
    T::Node: Discreet<()>,
    B::Node: Discreet<()>,
{
    for (requests, text) in texts.iter().enumerate() {
        let text = text.as_str().unwrap_or("no text");
        let is_whole = requests.saturating_add(1) == texts.len();
        let turns = if is_whole { Some(turns) } else { None };
        let around = runtime(alloc, language);
        if !writes(alloc, page, around, OpenFor { requests }, text, turns) {
            return false;
        }
    }
    true
}

/// Returns `true` if a row's texts are written in a language.
fn is_watched<F, T, B>(
    alloc: Global,
    language: Result<Language<F, T, B>, AllocError>,
    row: &Line,
) -> bool
where
    F: ParseFilter,
    T: ParseTag<F>,
    B: ParseBlock<F>,
    T::Node: Discreet<()>,
    B::Node: Discreet<()>,
{
    let Ok(language) = language else {
        return false;
    };
    match (page_of(alloc, &language, row), row.list(2), row.number(1)) {
        (Some(page), Some(texts), Some(turns)) => {
            each_is_written(alloc, &language, &page, texts, turns as u64)
        }
        _ => false,
    }
}

/// Returns `true` if a row's texts are written in the language of the test plug-ins.
fn row_holds(alloc: Global, row: &Line) -> bool {
    is_watched(alloc, language(alloc), row)
}

#[test]
fn a_closed_watch_stops_a_page_at_the_turn_or_the_piece(rt: HostRuntime) -> Result<(), Fail> {
    rows_hold(rt.alloc(), ROWS, row_holds)
}
