//! Outputs and error streams of any kind.
use crate::runs::{add_pages, add_words, has_bytes, has_error, has_status};
use liquid_files::InMemoryFolder;
use liquid_program::run::run;
use rows::{Line, rows_hold};
use std::alloc::Global;
use std::io::{self, BufWriter, ErrorKind, Write};
use std::test::Fail;

/// A writer that takes nothing.
#[derive(Drop)]
struct Full;

impl Write for Full {
    fn write(&mut self, _buf: &[u8]) -> io::Result<usize> {
        Ok(0)
    }

    fn flush(&mut self) -> io::Result<()> {
        Ok(())
    }
}

/// A writer that takes everything, and fails when it is flushed.
#[derive(Drop)]
struct Unflushed;

impl Write for Unflushed {
    fn write(&mut self, buf: &[u8]) -> io::Result<usize> {
        Ok(buf.len())
    }

    fn flush(&mut self) -> io::Result<()> {
        Err(io::Error::from(ErrorKind::Other))
    }
}

/// Returns `true` if the words of a row have its status over these files and streams.
fn ends_over<W: Write, E: Write>(
    alloc: Global,
    row: &Line,
    files: &mut InMemoryFolder,
    out: &mut W,
    err: &mut E,
) -> bool {
    let mut words = Vec::new(alloc);
    add_words(alloc, &mut words, row.member(0))
        && has_status(row, run(alloc, words.as_slice(), files, out, err))
}

/// Returns `true` if the words of a row have its status over these streams.
fn ends<W: Write, E: Write>(alloc: Global, row: &Line, out: &mut W, err: &mut E) -> bool {
    let mut files = InMemoryFolder::new(alloc);
    add_pages(alloc, &mut files, row) && ends_over(alloc, row, &mut files, out, err)
}

/// Returns `true` if the words of a row have its status and its error over this output.
fn reports<W: Write>(alloc: Global, row: &Line, out: &mut W) -> bool {
    let mut err = Vec::new(alloc);
    ends(alloc, row, out, &mut err) && has_error(alloc, row, err.as_slice())
}

/// A row as `runs` describes it, for an output that takes nothing. What the output has is not compared, so it is `null`.
const FULL: &str = r#"["render t g.json", "a", "{}", 1, null, "liquid: Failed to render\n"]"#;

/// Rows of the same places for an output that cannot be flushed. A failed flush is reported in place of an error, so
/// the output was flushed before the error is reported.
const UNFLUSHED: &str = r#"["render t g.json", "a", "{}", 1, null, "liquid: Failed to render\n"]
["render t g.json", "a{{ x }}b", "{}", 1, null, "liquid: Failed to render\n"]
["render v g.json", "a", "{}", 3, null, "liquid: cannot read v\n"]
["render", "a", "{}", 2, null, "USAGE"]"#;

/// Returns `true` if the words of a row have its status and its error over an output that takes nothing.
fn reports_full(alloc: Global, row: &Line) -> bool {
    reports(alloc, row, &mut Full)
}

/// Returns `true` if the words of a row have its status and its error over an output that cannot be flushed.
fn reports_unflushed(alloc: Global, row: &Line) -> bool {
    reports(alloc, row, &mut Unflushed)
}

#[test]
fn streams_may_fail(rt: HostRuntime) -> Result<(), Fail> {
    rows_hold(rt.alloc(), FULL, reports_full)?;
    rows_hold(rt.alloc(), UNFLUSHED, reports_unflushed)
}

/// Returns `true` if the words of a row have its status if neither stream works.
fn ends_unheard(alloc: Global, row: &Line) -> bool {
    ends(alloc, row, &mut Unflushed, &mut Full)
}

#[test]
fn a_fault_of_the_error_stream_changes_no_status(rt: HostRuntime) -> Result<(), Fail> {
    rows_hold(rt.alloc(), UNFLUSHED, ends_unheard)
}

/// Pages of several lengths, and an error after each.
const LONG: &str =
    r#"["render t g.json", [["0123456789 ", 1], "{{ x }}"], "{}", 1, [["0123456789 ", 1]], "liquid: Unknown variable\n  with:\n    requested variable=x\n"]
["render t g.json", [["0123456789 ", 8191], "{{ x }}"], "{}", 1, [["0123456789 ", 8191]], "liquid: Unknown variable\n  with:\n    requested variable=x\n"]
["render t g.json", [["0123456789 ", 8192], "{{ x }}"], "{}", 1, [["0123456789 ", 8192]], "liquid: Unknown variable\n  with:\n    requested variable=x\n"]
["render t g.json", [["0123456789 ", 8193], "{{ x }}"], "{}", 1, [["0123456789 ", 8193]], "liquid: Unknown variable\n  with:\n    requested variable=x\n"]
["render t g.json", [["0123456789 ", 100000], "{{ x }}"], "{}", 1, [["0123456789 ", 100000]], "liquid: Unknown variable\n  with:\n    requested variable=x\n"]"#;

/// Returns `true` if the page of a row, and the error after it, pass a buffer whole.
fn passes(alloc: Global, row: &Line, out: &mut BufWriter<Vec<u8>>) -> bool {
    reports(alloc, row, out)
        && out.buffer().is_empty()
        && has_bytes(alloc, row.member(4), out.get_ref().as_slice())
}

/// Returns `true` if the page of a row, and the error after it, pass a new buffer whole.
fn passes_a_buffer(alloc: Global, row: &Line) -> bool {
    match BufWriter::new(alloc, Vec::new(alloc)) {
        Ok(mut out) => passes(alloc, row, &mut out),
        Err(_) => false,
    }
}

#[test]
fn long_output_passes_a_buffer(rt: HostRuntime) -> Result<(), Fail> {
    rows_hold(rt.alloc(), LONG, passes_a_buffer)
}
