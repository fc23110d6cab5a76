//! A stranger's template: it sees what it is given, and keeps what it assigned where its sink fails.
use crate::parents::{STRICT, over};
use crate::sites::data;
use liquid_core::model::{Object, Value, ValueRender};
use liquid_core::parser::parse;
use liquid_core::runtime::{
    BuiltRuntime, Fresh, Runtime, RuntimeBuilder, SandboxedStackFrame, Seen,
};
use liquid_core::{Error, Sink, Template, TextSink, render_source};
use rows::{Line, Row, holds, is_text, rows_hold};
use std::alloc::{AllocError, Global};
use std::test::Fail;
use test_plugins::dripping::Dripping;
use test_plugins::languages::{language, leaky_language};
use test_plugins::{AnyFilter, BlockNode, TagNode};

/// Returns the rendered text of a name's value, or `-` if it has none.
fn shown<R: Runtime>(alloc: Global, runtime: &R, name: &str) -> Result<String, AllocError> {
    match runtime.try_get_name(name) {
        Some(Seen::Lent(value)) => ValueRender::new(value).to_string(alloc),
        _ => String::from_str(alloc, "-"),
    }
}

/// A template that assigns before and after it writes.
static ASSIGNING: &str =
    r#"{"template": "{% set g 1 %}a{{ b }}{% set g 2 %}", "data": {"b": 2}, "written": "a2"}"#;

/// How many puts a sink takes, what it took, what the name `g` is left as, and whether the call has no error.
static DRIPS: &str = r#"[0, "", "1", false]
[1, "a", "1", false]
[2, "a2", "2", true]"#;

/// Returns the page of a text of the test plug-ins.
fn page(alloc: Global, text: &str) -> Result<Template<AnyFilter, TagNode, BlockNode>, Error> {
    Ok(Template::new(parse(alloc, text, &language(alloc)?)?))
}

/// Renders a text of the test plug-ins in a sandbox that sees this data.
fn render<R, K>(
    alloc: Global,
    text: &str,
    data: Object,
    host: &mut R,
    sink: &mut K,
) -> Result<(), Error>
where
    R: Runtime<Store = ()>,
    K: Sink,
{
    page(alloc, text)?.render_sandboxed(alloc, sink, host, data, None)
}

/// Returns `true` if a row of a sink says what it took, what `g` is left as and whether the call has no error.
fn is_row_result<R: Runtime>(
    alloc: Global,
    drip: &Line,
    took: &[u8],
    after: &R,
    is_whole: bool,
) -> bool {
    match (drip.text(1), drip.text(2), drip.truth(3)) {
        (Some(wanted), Some(left), Some(is_wanted_whole)) => {
            took == wanted.as_bytes()
                && is_whole == is_wanted_whole
                && is_text(shown(alloc, after, "g"), left)
        }
        _ => false,
    }
}

/// Returns how many puts the sink of a row takes, or `None` if the row doesn't say it.
fn puts(drip: &Line) -> Option<u64> {
    match drip.number(0) {
        Some(puts) => u64::try_from(puts).ok(),
        None => None,
    }
}

/// Returns `true` if a row of a sink passes over a parent.
fn drips_over<R: Runtime<Store = ()>>(
    alloc: Global,
    drip: &Line,
    row: &Row,
    parent: &mut R,
) -> bool {
    match (puts(drip), data(alloc, row)) {
        (Some(puts), Ok(data)) => {
            let mut sink = Dripping::new(alloc, puts);
            let is_whole = render(alloc, row.template(), data, parent, &mut sink).is_ok();
            is_row_result(alloc, drip, sink.as_bytes(), &*parent, is_whole)
        }
        _ => false,
    }
}

/// Returns `true` if a row of a sink passes over the parent of a line.
fn drips_within(alloc: Global, drip: &Line, row: &Row, line: &str) -> bool {
    let Some(parent) = Line::of(alloc, line) else {
        return false;
    };
    match over(alloc, &parent, row, ()) {
        Some(mut host) => drips_over(alloc, drip, row, &mut host),
        None => false,
    }
}

/// Returns `true` if a row of a sink passes over each parent.
fn drips_over_each(alloc: Global, drip: &Line, row: &Row) -> bool {
    for parent in STRICT.lines() {
        if !drips_within(alloc, drip, row, parent) {
            return false;
        }
    }
    true
}

/// Returns `true` if a row of a sink passes with the template that assigns.
fn drips(alloc: Global, drip: &Line) -> bool {
    match Row::of(alloc, ASSIGNING) {
        Some(row) => drips_over_each(alloc, drip, &row),
        None => false,
    }
}

#[test]
fn a_sink_that_fails_in_a_sandbox_keeps_what_was_assigned(rt: HostRuntime) -> Result<(), Fail> {
    rows_hold(rt.alloc(), DRIPS, drips)
}

/// Returns a host with these globals.
fn host<V: Fresh>(alloc: Global, globals: Object) -> BuiltRuntime<V, ()> {
    RuntimeBuilder::new(alloc).set_globals(globals).build()
}

/// Returns one name with this value.
fn named(alloc: Global, name: &str, value: Value) -> Result<Object, AllocError> {
    let mut names = Object::new(alloc);
    names.insert(String::from_str(alloc, name)?, value)?;
    Ok(names)
}

/// Returns the value of a text.
fn text(alloc: Global, text: &str) -> Result<Value, AllocError> {
    Ok(Value::scalar(String::from_str(alloc, text)?))
}

/// Writes a stranger's template, which sees the visitor's name and nothing of the host's.
fn greeting<R: Runtime<Store = ()>>(
    alloc: Global,
    host: &mut R,
    sink: &mut TextSink,
) -> Result<(), Error> {
    let stranger = "Hello {{ name }}!{% set visits 1 %}{{ secret }}";
    let data = named(alloc, "name", text(alloc, "World")?)?;
    render(alloc, stranger, data, host, sink)
}

/// Returns `true` if a call has the error that `secret` has no value.
fn names_the_secret(alloc: Global, answer: Result<(), Error>) -> bool {
    match answer {
        Ok(()) => false,
        Err(error) => is_text(
            error.to_string(alloc),
            "liquid: Unknown variable\n  with:\n    requested variable=secret\n",
        ),
    }
}

/// Returns `true` if a sink took this text.
fn took(sink: TextSink, text: &str) -> bool {
    match sink.into_string() {
        Ok(taken) => taken.as_str() == text,
        Err(_) => false,
    }
}

/// Returns `true` if a stranger's template shows the visitor's name, and has an error at the host's secret.
fn shows_no_secret<R: Runtime<Store = ()>>(alloc: Global, host: &mut R) -> bool {
    let mut sink = TextSink::new(alloc);
    names_the_secret(alloc, greeting(alloc, host, &mut sink)) && took(sink, "Hello World!")
}

/// Returns `true` if a stranger's template doesn't see a secret of a host, and doesn't change it.
fn keeps_its_secret<R: Runtime<Store = ()>>(alloc: Global, host: &mut R) -> bool {
    shows_no_secret(alloc, host)
        && is_text(shown(alloc, &*host, "visits"), "1")
        && is_text(shown(alloc, &*host, "secret"), "42")
}

#[test]
fn a_stranger_sees_the_visitor_and_no_secret(rt: HostRuntime) -> Result<(), Fail> {
    let secret = named(rt.alloc(), "secret", Value::scalar(42i64))?;
    holds(
        keeps_its_secret(rt.alloc(), &mut host::<()>(rt.alloc(), secret)),
        "the stranger sees the visitor's name, and the host keeps its secret",
    )
}

/// Renders `leak` over a runtime.
fn leak<R>(alloc: Global, runtime: &mut R, sink: &mut TextSink) -> Result<(), Error>
where
    R: Runtime<Store = ()>,
{
    render_source(
        alloc,
        "{% leak s 1 %}",
        &leaky_language(alloc)?,
        runtime,
        sink,
    )
}

/// Returns `true` if `leak` writes this text over a runtime.
fn writes<R: Runtime<Store = ()>>(alloc: Global, runtime: &mut R, text: &str) -> bool {
    let mut sink = TextSink::new(alloc);
    leak(alloc, runtime, &mut sink).is_ok() && took(sink, text)
}

/// Returns `true` if `leak` writes this text under a sandboxed frame without names over a host.
fn leaks<R: Runtime<Store = ()> + Drop>(alloc: Global, host: R, wanted: &str) -> bool {
    let mut sandbox = SandboxedStackFrame::new(host, Object::new(alloc));
    writes(alloc, &mut sandbox, wanted)
}

/// Assigns the name `s` in a host.
fn assign<R: Runtime>(alloc: Global, host: &mut R) -> Result<(), Error> {
    host.set_global(String::from_str(alloc, "s")?, text(alloc, "S")?)?;
    Ok(())
}

/// Returns `true` if `leak` writes `S` over a host in which `s` is assigned, and nothing over one in which it is not.
fn leaks_what_is_assigned<R: Runtime<Store = ()> + Drop>(
    alloc: Global,
    mut assigned: R,
    other: R,
) -> bool {
    assign(alloc, &mut assigned).is_ok() && leaks(alloc, assigned, "S") && leaks(alloc, other, "")
}

#[test]
fn leak_writes_what_a_sandbox_hides(rt: HostRuntime) -> Result<(), Fail> {
    let assigned = host::<()>(rt.alloc(), Object::new(rt.alloc()));
    let other = host::<()>(rt.alloc(), Object::new(rt.alloc()));
    holds(
        leaks_what_is_assigned(rt.alloc(), assigned, other),
        "`leak` writes what is assigned around its sandbox",
    )
}
