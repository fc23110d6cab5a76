//! Sinks: texts of any length through a writer, and the faults of sinks.
use crate::given::{count_at, no_names, runtime_of};
use crate::pages::has_error;
use liquid_core::model::{ScalarCow, ValueCow};
use liquid_core::runtime::Runtime;
use liquid_core::{Error, Sink, SinkFault, TextSink, WriterSink, render_source};
use rows::{Line, holds, is_text, rows_hold};
use std::alloc::{AllocError, Global};
use std::io::{self, BufWriter, Write};
use std::test::Fail;
use test_plugins::dripping::Dripping;
use test_plugins::languages::language;

/// Takes at most a thousand bytes a write.
#[derive(Drop)]
struct Narrow {
    bytes: Vec<u8>,
}

impl Write for Narrow {
    fn write(&mut self, buf: &[u8]) -> io::Result<usize> {
        let taken = buf.len().min(1000);
        self.bytes.extend_from_slice(&buf[..taken])?;
        Ok(taken)
    }

    fn flush(&mut self) -> io::Result<()> {
        Ok(())
    }
}

/// Renders a text of the test plug-ins.
fn render<R, K>(alloc: Global, text: &str, runtime: &mut R, sink: &mut K) -> Result<(), Error>
where
    R: Runtime<Register = (), Store = ()>,
    K: Sink,
{
    let language = language(alloc)?;
    render_source(alloc, text, &language, runtime, sink)
}

/// Returns the text, a name and the text again.
fn twice(alloc: Global, text: &str) -> Result<String, AllocError> {
    format!(in alloc; "{text}{{{{ name }}}}{text}")
}

/// Returns `true` if a writer takes what a text writes over a runtime.
fn takes<R, W>(alloc: Global, text: &str, runtime: Option<R>, writer: &mut W) -> bool
where
    R: Runtime<Register = (), Store = ()> + Drop,
    W: Write,
{
    match runtime {
        Some(mut runtime) => {
            let mut sink = WriterSink::new(writer);
            let answer = render(alloc, text, &mut runtime, &mut sink);
            let _ = sink.into_inner();
            answer.is_ok()
        }
        None => false,
    }
}

/// Returns `true` if a writer takes a text, a name's value and the text again.
fn takes_twice<W: Write>(alloc: Global, text: &str, writer: &mut W) -> bool {
    match twice(alloc, text) {
        Ok(source) => {
            let runtime = runtime_of(alloc, r#"{"name": "World"}"#);
            takes(alloc, source.as_str(), runtime, writer)
        }
        Err(_) => false,
    }
}

/// Returns `true` if a list takes a text, a name's value and the text again, after what it has.
fn are_taken_by_a_list(alloc: Global, text: &str, wanted: &str) -> bool {
    match b"> ".to_vec(alloc) {
        Ok(mut bytes) => {
            takes_twice(alloc, text, &mut bytes)
                && bytes.as_slice().strip_prefix(b"> ") == Some(wanted.as_bytes())
        }
        Err(_) => false,
    }
}

/// Returns `true` if a writer with a buffer takes them.
fn are_taken_by_a_buffer(alloc: Global, text: &str, wanted: &str) -> bool {
    match BufWriter::new(alloc, Vec::new(alloc)) {
        Ok(mut buffered) => {
            takes_twice(alloc, text, &mut buffered)
                && buffered.flush().is_ok()
                && buffered.get_ref().as_slice() == wanted.as_bytes()
        }
        Err(_) => false,
    }
}

/// Returns `true` if a writer takes them that takes a part each time.
fn are_taken_by_parts(alloc: Global, text: &str, wanted: &str) -> bool {
    let mut narrow = Narrow {
        bytes: Vec::new(alloc),
    };
    takes_twice(alloc, text, &mut narrow) && narrow.bytes.as_slice() == wanted.as_bytes()
}

/// Lengths of texts, a row each.
const LENGTHS: &str =
    "[0]\n[1]\n[999]\n[1000]\n[1001]\n[4095]\n[4096]\n[4097]\n[8191]\n[8192]\n[8193]\n[100000]";

/// Returns `true` if each writer takes a text, a name's value and the text again.
fn are_taken(alloc: Global, text: &str) -> bool {
    match format!(in alloc; "{text}World{text}") {
        Ok(wanted) => {
            are_taken_by_a_list(alloc, text, wanted.as_str())
                && are_taken_by_a_buffer(alloc, text, wanted.as_str())
                && are_taken_by_parts(alloc, text, wanted.as_str())
        }
        Err(_) => false,
    }
}

/// Returns `true` if each writer takes the beginning of a text, of that length, in that way.
fn beginning_is_taken(alloc: Global, text: &str, length: usize) -> bool {
    match text.get(..length) {
        Some(text) => are_taken(alloc, text),
        None => false,
    }
}

/// Returns `true` if each writer takes a text of the row's length in that way.
fn length_is_taken(alloc: Global, row: &Line) -> bool {
    match count_at(row, 0) {
        Some(length) => match "0123456789abc\n".repeat(alloc, length as usize / 14 + 1) {
            Ok(text) => beginning_is_taken(alloc, text.as_str(), length as usize),
            Err(_) => false,
        },
        None => false,
    }
}

#[test]
fn a_writer_takes_texts_of_any_length(rt: HostRuntime) -> Result<(), Fail> {
    rows_hold(rt.alloc(), LENGTHS, length_is_taken)
}

#[test]
fn a_writer_that_takes_nothing_fails(rt: HostRuntime) -> Result<(), Fail> {
    let alloc = rt.alloc();
    let mut room = [0; 2];
    let mut writer = &mut room[..];
    let mut sink = WriterSink::new(&mut writer);
    holds(
        sink.put(b"ab!") == Ok(2) && sink.put(b"!") == Err(SinkFault::Failed),
        "there is room for two bytes",
    )?;
    holds(
        is_text(SinkFault::Failed.to_string(alloc), "sink failed")
            && is_text(SinkFault::Memory.to_string(alloc), "out of memory"),
        "the faults have texts",
    )
}

#[test]
fn bytes_that_are_no_text_are_refused(rt: HostRuntime) -> Result<(), Fail> {
    let mut sink = TextSink::new(rt.alloc());
    holds(
        sink.put(b"\xff") == Ok(1)
            && sink.as_bytes() == b"\xff".as_slice()
            && sink.into_string().is_err(),
        "a byte that is not text is taken and kept",
    )
}

/// Returns `true` if a sink has taken just what a row says, and the call has the row's error.
fn is_drip(alloc: Global, drip: &Line, sink: &Dripping, answer: &Result<(), Error>) -> bool {
    match drip.text(2).zip(drip.text(3)) {
        Some((taken, error)) => {
            sink.as_bytes() == taken.as_bytes() && has_error(alloc, answer, error)
        }
        None => false,
    }
}

/// Returns `true` if the sink takes just that of the template, and the call has this error.
fn drips<R>(alloc: Global, drip: &Line, runtime: &mut R) -> bool
where
    R: Runtime<Register = (), Store = ()>,
{
    match count_at(drip, 0).zip(drip.text(1)) {
        Some((puts, text)) => {
            let mut sink = Dripping::new(alloc, puts);
            let answer = render(alloc, text, runtime, &mut sink);
            is_drip(alloc, drip, &sink, &answer)
        }
        None => false,
    }
}

/// How many puts of a byte a sink takes, the template, what the sink took of it, and the error. An empty value makes no
/// put.
const DRIPS: &str = r#"[0, "Hello", "", "liquid: Failed to render\n"]
[1, "Hello", "H", "liquid: Failed to render\n"]
[2, "Hello", "He", "liquid: Failed to render\n"]
[3, "Hello", "Hel", "liquid: Failed to render\n"]
[4, "Hello", "Hell", "liquid: Failed to render\n"]
[5, "Hello", "Hello", ""]
[0, "{{ x }}{{ y }}", "", ""]
[2, "{% box %}ab{% endbox %}", "[a", "liquid: Failed to render\n"]"#;

/// Returns `true` if a row is true over names whose values are empty.
fn keeps_the_beginning(alloc: Global, drip: &Line) -> bool {
    match runtime_of(alloc, r#"{"x": "", "y": null}"#) {
        Some(mut runtime) => drips(alloc, drip, &mut runtime),
        None => false,
    }
}

#[test]
fn a_sink_that_fails_keeps_the_beginning(rt: HostRuntime) -> Result<(), Fail> {
    rows_hold(rt.alloc(), DRIPS, keeps_the_beginning)
}

/// A template that assigns a name before its first byte and before its second, of which a sink takes the first.
const ASSIGNED: &str = r#"[1, "{% set g 1 %}ab{% set g 2 %}", "a", "liquid: Failed to render\n"]"#;

/// Returns `true` if a name has a value with this text.
fn is_value(alloc: Global, answer: Result<ValueCow<'_>, Error>, wanted: &str) -> bool {
    match answer {
        Ok(value) => match value.as_view().to_kstr(alloc) {
            Ok(text) => text.as_str() == wanted,
            Err(_) => false,
        },
        Err(_) => false,
    }
}

/// Returns `true` if a sink takes the first byte of that template, and the name is then as it was assigned before.
fn keeps_the_first<R>(alloc: Global, drip: &Line, mut runtime: R) -> bool
where
    R: Runtime<Register = (), Store = ()> + Drop,
{
    drips(alloc, drip, &mut runtime)
        && is_value(alloc, runtime.get(alloc, &[ScalarCow::from("g")]), "1")
}

/// Returns `true` if that is so over a runtime without names.
fn keeps_what_was_assigned(alloc: Global, drip: &Line) -> bool {
    keeps_the_first(alloc, drip, no_names(alloc))
}

#[test]
fn a_sink_that_fails_keeps_what_was_assigned(rt: HostRuntime) -> Result<(), Fail> {
    rows_hold(rt.alloc(), ASSIGNED, keeps_what_was_assigned)
}
