//! Counters near the greatest integer.
use crate::given::no_names;
use crate::library_language::library_language;
use crate::renderings::writes;
use crate::sink_given::page;
use liquid_core::model::{Value, ValueRender};
use liquid_core::parser::{Language, ParseBlock, ParseFilter, ParseTag};
use liquid_core::runtime::{Renderable, Runtime, Template};
use liquid_core::{Filter, PartialStore};
use rows::{Line, is_text, rows_hold};
use std::alloc::{AllocError, Global};
use std::test::Fail;

/// Two counts.
const COUNTS: &str = "{% increment n %} {% increment n %}";

/// The value that counting begins with, what two counts write, with the error's text after it, and the number that is
/// left: a count past the limit leaves it as it was.
const ROWS: &str = r#"[6, "6 7", "8"]
["6", "6 7", "8"]
["-1", "-1 0", "1"]
["six", "0 1", "2"]
[9223372036854775806, "9223372036854775806 liquid: Counter past its limit\n  with:\n    name=n\n", "9223372036854775807"]"#;

/// Returns the value that counting begins with.
fn start(alloc: Global, row: &Line) -> Option<Value> {
    match row.text(0) {
        Some(text) => Some(Value::scalar(String::from_str(alloc, text).ok()?)),
        None => Some(Value::scalar(row.number(0)?)),
    }
}

/// Sets the counter to what a row begins with, and returns `false` if memory runs out.
fn begins<R: Runtime>(alloc: Global, row: &Line, runtime: &mut R) -> bool {
    match String::from_str(alloc, "n").ok().zip(start(alloc, row)) {
        Some((name, start)) => runtime.set_index(name, start).is_ok(),
        None => false,
    }
}

/// Returns `true` if the counter is left as a row says.
fn is_left<R: Runtime>(alloc: Global, row: &Line, runtime: &R) -> bool {
    match runtime.get_index("n").zip(row.text(2)) {
        Some((number, wanted)) => is_text(ValueRender::new(number).to_string(alloc), wanted),
        None => false,
    }
}

/// Returns `true` if two counts write what a row says, and leave what it says.
fn counts<X, T, B, R>(alloc: Global, row: &Line, page: &Template<X, T, B>, mut runtime: R) -> bool
where
    X: Filter,
    R: Runtime + Drop,
    T: Renderable<R::Register>,
    B: Renderable<R::Register>,
    R::Store: PartialStore<X, T, B>,
{
    match row.text(1) {
        Some(wanted) => {
            begins(alloc, row, &mut runtime)
                && writes(alloc, page, &mut runtime, wanted)
                && is_left(alloc, row, &runtime)
        }
        None => false,
    }
}

/// Returns `true` if a row is true for two counts in a language.
fn counts_in<F, T, B>(
    alloc: Global,
    row: &Line,
    language: Result<Language<F, T, B>, AllocError>,
) -> bool
where
    F: ParseFilter,
    T: ParseTag<F>,
    B: ParseBlock<F>,
    T::Node: Renderable<()>,
    B::Node: Renderable<()>,
{
    match language {
        Ok(language) => match page(alloc, &language, COUNTS) {
            Some(page) => counts(alloc, row, &page, no_names(alloc)),
            None => false,
        },
        Err(_) => false,
    }
}

/// Returns `true` if a row is true for two counts.
fn is_counted(alloc: Global, row: &Line) -> bool {
    counts_in(alloc, row, library_language(alloc))
}

#[test]
fn a_counter_ends_at_the_greatest_number(rt: HostRuntime) -> Result<(), Fail> {
    rows_hold(rt.alloc(), ROWS, is_counted)
}
