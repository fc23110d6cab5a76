//! How often a filter is made and called: a text is parsed once, and a chain calls each of its filters
//! once.

use crate::given::no_names;
use crate::kinds::add;
use crate::partial_rows::{are_names, requests};
use liquid_core::parser::{
    Filter, FilterReflection, Language, Meant, NoPlugin, ParseFilter, parse,
};
use liquid_core::partials::{InMemorySource, OnDemandCompiler, OnDemandStore, PartialCompiler};
use liquid_core::runtime::{Runtime, Template};
use liquid_core::{PartialStore, TextSink};
use rows::holds;
use std::alloc::Global;
use std::cell::Cell;
use std::rc::Rc;
use std::test::Fail;
use test_plugins::Counted;

/// Returns counts of how often the filter was made and called, or `None` if there is no memory for one.
fn counts_of(made: Option<Rc<Cell<u64>>>, calls: Option<Rc<Cell<u64>>>) -> Option<Counted> {
    match made.zip(calls) {
        Some((made, calls)) => Some(Counted { made, calls }),
        None => None,
    }
}

/// Returns how often the filter was made, and how often it was called: not yet.
fn no_counts(alloc: Global) -> Option<Counted> {
    counts_of(
        Rc::new(alloc, Cell::new(0)).ok(),
        Rc::new(alloc, Cell::new(0)).ok(),
    )
}

/// Returns a plug-in that shares these counts.
fn sharing(counts: &Counted) -> Option<Counted> {
    counts_of(counts.made.clone().ok(), counts.calls.clone().ok())
}

/// Returns a language of a filter alone.
fn language_of<F>(alloc: Global, filter: Option<F>) -> Option<Language<F, NoPlugin, NoPlugin>>
where
    F: FilterReflection + Drop,
{
    let mut language = Language::empty(alloc);
    let is_added = match filter {
        Some(filter) => language.add_filter(alloc, filter).is_ok(),
        None => false,
    };
    if is_added { Some(language) } else { None }
}

/// Returns `true` if a text in a language of a filter alone is rendered as a text.
fn is_rendered<F, R>(
    alloc: Global,
    text: &str,
    language: &Language<F, NoPlugin, NoPlugin>,
    mut runtime: R,
) -> bool
where
    F: ParseFilter,
    R: Runtime<Register = (), Store = ()> + Drop,
{
    match parse(alloc, text, language) {
        Ok(nodes) => {
            let mut sink = TextSink::new(alloc);
            let answer = Template::new(nodes).render_to(alloc, &mut sink, &mut runtime);
            answer.is_ok() && sink.into_string().is_ok()
        }
        Err(_) => false,
    }
}

/// Returns `true` if a text is rendered in a language of a filter alone.
fn renders<F>(alloc: Global, text: &str, filter: Option<F>) -> bool
where
    F: ParseFilter,
{
    match language_of(alloc, filter) {
        Some(language) => is_rendered(alloc, text, &language, no_names(alloc)),
        None => false,
    }
}

/// Returns `true` if rendering a text calls the filter that often.
fn calls(alloc: Global, text: &str, wanted: u64) -> bool {
    match no_counts(alloc) {
        Some(counts) => renders(alloc, text, sharing(&counts)) && counts.calls.get() == wanted,
        None => false,
    }
}

#[test]
fn each_filter_is_called_once(rt: HostRuntime) -> Result<(), Fail> {
    let alloc = rt.alloc();
    holds(calls(alloc, "{{ 5 | counted }}", 1), "one filter")?;
    holds(
        calls(alloc, "{{ 5 | counted | counted }}{{ 5 }}", 2),
        "two filters",
    )
}

/// Returns a source of a text that has the name `p`.
fn source(alloc: Global) -> Option<InMemorySource> {
    let mut source = InMemorySource::new(alloc);
    if add(alloc, &mut source, "p", "{{ 5 | counted }}").is_ok() {
        Some(source)
    } else {
        None
    }
}

/// Returns a store that reads that text at each request, in a language of a filter alone.
fn store<F>(
    alloc: Global,
    filter: Option<F>,
) -> Option<OnDemandStore<InMemorySource, F, NoPlugin, NoPlugin>>
where
    F: ParseFilter,
{
    let language = Rc::new(alloc, language_of(alloc, filter)?).ok()?;
    match source(alloc) {
        Some(source) => OnDemandCompiler::new(source).compile(alloc, language).ok(),
        None => None,
    }
}

/// Returns `true` if a store parses its text once for a request and not beforehand, and does not render it.
fn parses_once<S, X, T, B>(alloc: Global, store: Option<S>, counts: &Counted) -> bool
where
    S: PartialStore<X, T, B> + Drop,
    X: Filter,
    T: Meant + Drop,
    B: Meant + Drop,
{
    match store {
        Some(mut store) => {
            are_names(alloc, store.names(alloc), "p")
                && counts.made.get() == 0
                && requests::<S, X, T, B>(alloc, &mut store, "p", true)
                && counts.made.get() == 1
                && counts.calls.get() == 0
        }
        None => false,
    }
}

/// Returns `true` if a request parses its text once.
fn request_parses_once(alloc: Global) -> bool {
    match no_counts(alloc) {
        Some(counts) => {
            let store = store(alloc, sharing(&counts));
            parses_once::<_, Counted, NoPlugin, NoPlugin>(alloc, store, &counts)
        }
        None => false,
    }
}

#[test]
fn a_request_parses_its_text_once(rt: HostRuntime) -> Result<(), Fail> {
    holds(
        request_parses_once(rt.alloc()),
        "a request parses its text once",
    )
}
