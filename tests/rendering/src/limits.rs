//! Limits on turns and on bytes: what is written with each number of either, from none to all that the page takes, over
//! a runtime, in a sandbox and in isolation.
use crate::pages::{Page, has_error};
use crate::sink_given::{names, page, page_of, runtime};
use liquid_core::parser::{Language, ParseBlock, ParseFilter, ParseTag};
use liquid_core::runtime::{Runtime, Template};
use liquid_core::{Discreet, Error, Filter, GatedSink, Limits, PartialStore, TextSink};
use rows::{Line, holds, rows_hold};
use serde_json::Value as Json;
use std::alloc::{AllocError, Global};
use std::test::Fail;
use test_plugins::languages::language;

/// More turns and bytes than any row takes.
const MANY: u64 = 1000;

const STOPPED: &str = "liquid: Rendering was stopped\n";

/// A template, what it writes with no turn, with one and so on up to all, and with no byte, with one and so on up to
/// all. A block of the tests takes three turns, and a tag one. The partial `p` has a tag. A piece is written whole or
/// not at all, and an empty one requests nothing.
const ROWS: &str = r#"["Hello", ["Hello"], ["", "", "", "", "", "Hello"]]
["a{% box %}b{% endbox %}c{% set g 1 %}", ["a", "a[", "a[b", "a[b]c", "a[b]c"], ["", "a", "a[", "a[b", "a[b]", "a[b]c"]]
["{% box %}{% box %}x{% endbox %}{% endbox %}", ["", "[", "[", "[[", "[[x", "[[x]", "[[x]]"], ["", "[", "[[", "[[x", "[[x]", "[[x]]"]]
["{% swap %}ab{% mid %}{{ 45 }}{% endswap %}", ["", "45", "45ab", "45ab"], ["", "", "45", "45", "45ab"]]
["{% inc p %}{{ x }}b", ["", "p7", "p7b"], ["", "p", "p7", "p7b"]]"#;

/// What a page is rendered in.
#[derive(Clone, Copy)]
enum Surroundings {
    Runtime,
    Sandbox,
    Isolation,
}

/// A number of turns and of bytes.
#[derive(Clone, Copy)]
struct Allowed {
    turns: u64,
    bytes: u64,
}

impl Allowed {
    /// Returns that many turns and many bytes, or that many bytes and many turns.
    fn of(count: u64, of_turns: bool) -> Allowed {
        if of_turns {
            Allowed {
                turns: count,
                bytes: MANY,
            }
        } else {
            Allowed {
                turns: MANY,
                bytes: count,
            }
        }
    }
}

/// A text, and whether a page writes it as a whole.
#[derive(Clone, Copy)]
struct Wanted<'a> {
    text: Option<&'a str>,
    whole: bool,
}

/// Renders a page over a runtime, or in it with the names of the rows.
fn render<X, T, B, R>(
    alloc: Global,
    surroundings: Surroundings,
    page: &Template<X, T, B>,
    sink: &mut GatedSink<TextSink, Limits>,
    around: &mut R,
) -> Result<(), Error>
where
    X: Filter,
    T: Discreet<()>,
    B: Discreet<()>,
    R: Runtime<Register = ()>,
    R::Store: PartialStore<X, T, B>,
{
    match (surroundings, names(alloc)) {
        (Surroundings::Runtime, _) => page.render_within(alloc, sink, around),
        (Surroundings::Sandbox, Some(names)) => {
            page.render_sandboxed_within(alloc, sink, around, names, None)
        }
        (Surroundings::Isolation, Some(names)) => {
            page.render_isolated_within(alloc, sink, around, names, None)
        }
        _ => Err(Error::Memory),
    }
}

/// Returns `true` if a sink with that many turns and bytes took this text, and its page was stopped if more would
/// follow.
fn is_stopped(
    alloc: Global,
    sink: &GatedSink<TextSink, Limits>,
    allowed: Allowed,
    answer: &Result<(), Error>,
    wanted: Wanted<'_>,
) -> bool {
    match wanted.text {
        Some(text) => {
            sink.gate().turns_passed() <= allowed.turns
                && sink.gate().bytes_passed() <= allowed.bytes
                && sink.sink().as_bytes() == text.as_bytes()
                && has_error(alloc, answer, if wanted.whole { "" } else { STOPPED })
        }
        None => false,
    }
}

/// Returns `true` if a page with that many turns and bytes writes this, and is stopped if more would follow.
fn writes<X, T, B, R>(
    alloc: Global,
    surroundings: Surroundings,
    page: &Template<X, T, B>,
    around: Option<R>,
    allowed: Allowed,
    wanted: Wanted<'_>,
) -> bool
where
    X: Filter,
    T: Discreet<()>,
    B: Discreet<()>,
    R: Runtime<Register = ()> + Drop,
    R::Store: PartialStore<X, T, B>,
{
    match around {
        Some(mut around) => {
            let gate = Limits::new(allowed.turns, allowed.bytes);
            let mut sink = GatedSink::new(TextSink::new(alloc), gate);
            let answer = render(alloc, surroundings, page, &mut sink, &mut around);
            is_stopped(alloc, &sink, allowed, &answer, wanted)
        }
        None => false,
    }
}

/// Returns `true` if these texts are written with none, one and so on, of turns or of bytes.
fn each_is_written<F, T, B>(
    alloc: Global,
    language: &Language<F, T, B>,
    surroundings: Surroundings,
    page: &Page<F, T, B>,
    texts: &Vec<Json>,
    of_turns: bool,
) -> bool
where
    F: ParseFilter,
    T: ParseTag<F>,
    B: ParseBlock<F>,
    T::Node: Discreet<()>,
    B::Node: Discreet<()>,
{
    for (number, text) in texts.iter().enumerate() {
        let allowed = Allowed::of(number as u64, of_turns);
        let wanted = Wanted {
            text: text.as_str(),
            whole: number.saturating_add(1) == texts.len(),
        };
        let around = runtime(alloc, language);
        if !writes(alloc, surroundings, page, around, allowed, wanted) {
            return false;
        }
    }
    true
}

/// Returns `true` if a row's texts are written in some surroundings, with each number of turns and of bytes.
fn is_written_in<F, T, B>(
    alloc: Global,
    language: &Language<F, T, B>,
    surroundings: Surroundings,
    page: &Page<F, T, B>,
    row: &Line,
) -> bool
where
    F: ParseFilter,
    T: ParseTag<F>,
    B: ParseBlock<F>,
    T::Node: Discreet<()>,
    B::Node: Discreet<()>,
{
    match row.list(1).zip(row.list(2)) {
        Some((turns, bytes)) => {
            each_is_written(alloc, language, surroundings, page, turns, true)
                && each_is_written(alloc, language, surroundings, page, bytes, false)
        }
        None => false,
    }
}

/// Returns `true` if a row's texts are written in each of the surroundings.
fn is_limited_in<F, T, B>(alloc: Global, language: &Language<F, T, B>, row: &Line) -> bool
where
    F: ParseFilter,
    T: ParseTag<F>,
    B: ParseBlock<F>,
    T::Node: Discreet<()>,
    B::Node: Discreet<()>,
{
    match page_of(alloc, language, row) {
        Some(page) => {
            is_written_in(alloc, language, Surroundings::Runtime, &page, row)
                && is_written_in(alloc, language, Surroundings::Sandbox, &page, row)
                && is_written_in(alloc, language, Surroundings::Isolation, &page, row)
        }
        None => false,
    }
}

/// Returns `true` if a row's texts are written in a language.
fn is_limited<F, T, B>(
    alloc: Global,
    language: Result<Language<F, T, B>, AllocError>,
    row: &Line,
) -> bool
where
    F: ParseFilter,
    T: ParseTag<F>,
    B: ParseBlock<F>,
    T::Node: Discreet<()>,
    B::Node: Discreet<()>,
{
    match language {
        Ok(language) => is_limited_in(alloc, &language, row),
        Err(_) => false,
    }
}

/// Returns `true` if a row's texts are written in the language of the test plug-ins.
fn row_holds(alloc: Global, row: &Line) -> bool {
    is_limited(alloc, language(alloc), row)
}

#[test]
fn limits_stop_a_page_at_the_turn_or_the_piece(rt: HostRuntime) -> Result<(), Fail> {
    rows_hold(rt.alloc(), ROWS, row_holds)
}

/// Returns `true` if a sink with one turn and one byte takes the text `a` of a page, and is given back.
fn is_given_back<X, T, B, R>(alloc: Global, page: &Template<X, T, B>, around: Option<R>) -> bool
where
    X: Filter,
    T: Discreet<()>,
    B: Discreet<()>,
    R: Runtime<Register = ()> + Drop,
    R::Store: PartialStore<X, T, B>,
{
    match around {
        Some(mut around) => {
            let mut sink = GatedSink::new(TextSink::new(alloc), Limits::new(1, 1));
            let answer = render(alloc, Surroundings::Runtime, page, &mut sink, &mut around);
            answer.is_ok() && sink.into_sink().as_bytes() == b"a".as_slice()
        }
        None => false,
    }
}

/// Returns `true` if the sink of the text `a` in a language is given back.
fn gives_back<F, T, B>(alloc: Global, language: Result<Language<F, T, B>, AllocError>) -> bool
where
    F: ParseFilter,
    T: ParseTag<F>,
    B: ParseBlock<F>,
    T::Node: Discreet<()>,
    B::Node: Discreet<()>,
{
    match language {
        Ok(language) => match page(alloc, &language, "a") {
            Some(page) => is_given_back(alloc, &page, runtime(alloc, &language)),
            None => false,
        },
        Err(_) => false,
    }
}

#[test]
fn a_gated_sink_gives_its_sink_back(rt: HostRuntime) -> Result<(), Fail> {
    holds(
        gives_back(rt.alloc(), language(rt.alloc())),
        "a gated sink gives its sink back",
    )
}
