//! The calls that render, each over its own runtime, and the tables of rows by each of them.
use crate::pages::Page;
use crate::sink_given::{ROWS, names, page_of, runtime};
use liquid_core::parser::{Language, ParseBlock, ParseFilter, ParseTag};
use liquid_core::runtime::{ChainedScopes, FlatScopes, Renderable, Runtime, Scopes, Template};
use liquid_core::{Discreet, Error, Filter, PartialStore, Sink};
use rows::Line;
use std::alloc::{AllocError, Global};

/// A call that renders.
#[derive(Clone, Copy, Debug)]
pub(crate) enum Call {
    Plain,
    Sandboxed,
    Chained,
    Flat,
}

const CALLS: [Call; 4] = [Call::Plain, Call::Sandboxed, Call::Chained, Call::Flat];

/// Renders over scopes of one form, and returns the base.
fn over<S, X, T, B, K>(
    alloc: Global,
    page: &Template<X, T, B>,
    sink: &mut K,
    base: S::Base,
) -> (Result<(), Error>, S::Base)
where
    S: Scopes<Register = ()>,
    X: Filter,
    T: Renderable<()>,
    B: Renderable<()>,
    S::Store: PartialStore<X, T, B>,
    K: Sink,
{
    let mut scopes = S::new(alloc, base);
    let answer = page.render_in(alloc, sink, &mut scopes);
    (answer, scopes.into_base())
}

/// Renders in a sandbox over a runtime.
fn sandboxed<X, T, B, R, K>(
    alloc: Global,
    page: &Template<X, T, B>,
    sink: &mut K,
    around: &mut R,
) -> Result<(), Error>
where
    X: Filter,
    T: Discreet<()>,
    B: Discreet<()>,
    R: Runtime<Register = ()>,
    R::Store: PartialStore<X, T, B>,
    K: Sink,
{
    match names(alloc) {
        Some(names) => page.render_sandboxed(alloc, sink, around, names, None),
        None => Err(Error::Memory),
    }
}

/// Makes the call over a runtime, and returns it, too.
pub(crate) fn rendered<X, T, B, R, K>(
    alloc: Global,
    page: &Template<X, T, B>,
    sink: &mut K,
    call: Call,
    mut around: R,
) -> (Result<(), Error>, R)
where
    X: Filter,
    T: Discreet<()>,
    B: Discreet<()>,
    R: Runtime<Register = ()> + Drop,
    R::Store: PartialStore<X, T, B>,
    K: Sink,
{
    match call {
        Call::Plain => (page.render_to(alloc, sink, &mut around), around),
        Call::Sandboxed => (sandboxed(alloc, page, sink, &mut around), around),
        Call::Chained => over::<ChainedScopes<R>, X, T, B, K>(alloc, page, sink, around),
        Call::Flat => over::<FlatScopes<R>, X, T, B, K>(alloc, page, sink, around),
    }
}

/// A kind of sink that fails after some bytes.
pub(crate) trait Failing: Copy + Drop {
    /// Returns `true` if a call over a sink that fails after that many bytes leaves just those of the row's text, has
    /// the error that the row and the sink give, and leaves what was assigned up to there.
    fn holds<X, T, B, R>(
        self,
        alloc: Global,
        row: &Line,
        page: &Template<X, T, B>,
        bytes: usize,
        call: Call,
        around: R,
    ) -> bool
    where
        X: Filter,
        T: Discreet<()>,
        B: Discreet<()>,
        R: Runtime<Register = ()> + Drop,
        R::Store: PartialStore<X, T, B>;
}

/// Makes each call over a sink that fails after that many bytes of a row, and counts it.
fn calls_hold<F, T, B, K>(
    alloc: Global,
    language: &Language<F, T, B>,
    row: &Line,
    page: &Page<F, T, B>,
    (kind, bytes): (K, usize),
    count: &mut usize,
) -> bool
where
    F: ParseFilter,
    T: ParseTag<F>,
    B: ParseBlock<F>,
    T::Node: Discreet<()>,
    B::Node: Discreet<()>,
    K: Failing,
{
    for call in CALLS {
        let is_so = match runtime(alloc, language) {
            Some(around) => kind.holds(alloc, row, page, bytes, call, around),
            None => false,
        };
        if !is_so {
            return false;
        }
        *count = count.saturating_add(1);
    }
    true
}

/// Makes each call over each sink that fails within the text of a row or after it, and counts it.
fn sinks_hold<F, T, B, K>(
    alloc: Global,
    language: &Language<F, T, B>,
    row: &Line,
    page: &Page<F, T, B>,
    kind: K,
    count: &mut usize,
) -> bool
where
    F: ParseFilter,
    T: ParseTag<F>,
    B: ParseBlock<F>,
    T::Node: Discreet<()>,
    B::Node: Discreet<()>,
    K: Failing,
{
    for bytes in 0..row.text(1).unwrap_or("").len().saturating_add(1) {
        if !calls_hold(alloc, language, row, page, (kind, bytes), count) {
            return false;
        }
    }
    true
}

/// Makes each call over each sink of the row of a line, and counts it.
fn line_holds<F, T, B, K>(
    alloc: Global,
    language: &Language<F, T, B>,
    line: &str,
    kind: K,
    count: &mut usize,
) -> bool
where
    F: ParseFilter,
    T: ParseTag<F>,
    B: ParseBlock<F>,
    T::Node: Discreet<()>,
    B::Node: Discreet<()>,
    K: Failing,
{
    match Line::of(alloc, line) {
        Some(row) => match page_of(alloc, language, &row) {
            Some(page) => sinks_hold(alloc, language, &row, &page, kind, count),
            None => false,
        },
        None => false,
    }
}

/// Makes each call over each sink of each row and kind, and counts it.
fn rows_hold<F, T, B, K>(
    alloc: Global,
    language: &Language<F, T, B>,
    kinds: &[K],
    count: &mut usize,
) -> bool
where
    F: ParseFilter,
    T: ParseTag<F>,
    B: ParseBlock<F>,
    T::Node: Discreet<()>,
    B::Node: Discreet<()>,
    K: Failing,
{
    for line in ROWS.lines() {
        for kind in kinds {
            if !line_holds(alloc, language, line, *kind, count) {
                return false;
            }
        }
    }
    true
}

/// Returns `true` if each call over each sink of each row and kind is as it should be, and there are that many.
pub(crate) fn all_hold<F, T, B, K>(
    alloc: Global,
    language: Result<Language<F, T, B>, AllocError>,
    kinds: &[K],
    wanted: usize,
) -> bool
where
    F: ParseFilter,
    T: ParseTag<F>,
    B: ParseBlock<F>,
    T::Node: Discreet<()>,
    B::Node: Discreet<()>,
    K: Failing,
{
    let mut count = 0usize;
    match language {
        Ok(language) => rows_hold(alloc, &language, kinds, &mut count) && count == wanted,
        Err(_) => false,
    }
}
