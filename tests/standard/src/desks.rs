//! The standard tags over a register of a caller's own that holds marks.

use crate::sources::is_whole;
use liquid_core::parser::{Language, ParseBlock, ParseFilter, ParseTag, PluginRegistry};
use liquid_core::partials::InMemorySource;
use liquid_core::runtime::Renderable;
use liquid_core::{
    BuiltRuntime, Error, NoPlugin, Object, PartialStore, Runtime, RuntimeBuilder, TextSink,
    render_page_in, render_source,
};
use liquid_std::{StdBlocks, StdTags, language};
use rows::holds;
use std::alloc::{AllocError, Global};
use std::test::Fail;
use test_calls::Desk;

/// Returns the standard language without filters.
fn plain_language(alloc: Global) -> Result<Language<NoPlugin, StdTags, StdBlocks>, AllocError> {
    language(alloc, PluginRegistry::new(alloc))
}

/// Counts a visit.
fn visit<R: Runtime<Register = Desk>>(runtime: &mut R) {
    let desk = &mut runtime.registers_mut().value;
    desk.visits = desk.visits.saturating_add(1);
}

/// Renders a text twice over one desk, with a visit each time.
fn render_twice<F, T, B, R>(
    alloc: Global,
    text: &str,
    language: &Language<F, T, B>,
    runtime: &mut R,
    sink: &mut TextSink,
) -> Result<(), Error>
where
    F: ParseFilter,
    T: ParseTag<F>,
    B: ParseBlock<F>,
    T::Node: Renderable<Desk>,
    B::Node: Renderable<Desk>,
    R: Runtime<Register = Desk>,
    R::Store: PartialStore<F::Filter, T::Node, B::Node>,
{
    for _ in 0..2 {
        visit(runtime);
        render_source(alloc, text, language, runtime, sink)?;
    }
    Ok(())
}

/// Renders a page with marks twice over one desk.
fn render_marks<R>(alloc: Global, runtime: &mut R, sink: &mut TextSink) -> Result<(), Error>
where
    R: Runtime<Register = Desk, Store = ()>,
{
    let text = "{% cycle 1, 2, 3 %}{% ifchanged %}a{% endifchanged %}";
    render_twice(alloc, text, &plain_language(alloc)?, runtime, sink)
}

/// Returns `true` if two pages over one desk share its marks, and are two visits.
fn keeps_marks_and_visits<R>(alloc: Global, runtime: &mut R) -> bool
where
    R: Runtime<Register = Desk, Store = ()>,
{
    let mut sink = TextSink::new(alloc);
    let answer = render_marks(alloc, runtime, &mut sink);
    is_whole(alloc, sink, answer, "1a2") && runtime.registers().value.visits == 2
}

#[test]
fn a_desk_keeps_marks_and_visits(rt: HostRuntime) -> Result<(), Fail> {
    let mut runtime: BuiltRuntime<Desk, ()> = RuntimeBuilder::new(rt.alloc()).build();
    holds(
        keeps_marks_and_visits(rt.alloc(), &mut runtime),
        "a desk keeps its marks and its visits",
    )
}

/// Renders a page with marks over a desk of its own.
fn render_fresh(alloc: Global, sink: &mut TextSink) -> Result<(), Error> {
    render_page_in::<Desk, NoPlugin, StdTags, StdBlocks, InMemorySource, TextSink>(
        alloc,
        "{% cycle 1, 2 %}{% cycle 1, 2 %}{% ifchanged %}a{% endifchanged %}",
        plain_language(alloc)?,
        Object::new(alloc),
        InMemorySource::new(alloc),
        sink,
    )
}

#[test]
fn a_page_has_a_fresh_desk(rt: HostRuntime) -> Result<(), Fail> {
    let mut sink = TextSink::new(rt.alloc());
    let answer = render_fresh(rt.alloc(), &mut sink);
    holds(
        is_whole(rt.alloc(), sink, answer, "12a"),
        "a page has marks of its own",
    )
}
