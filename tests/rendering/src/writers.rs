//! Writers that count their calls, and fail once at any of them.
use crate::sink_calls::{Call, Failing, all_hold, rendered};
use crate::sink_given::is_beginning;
use liquid_core::runtime::{Runtime, Template};
use liquid_core::{Discreet, Filter, PartialStore, Sink, SinkFault, WriterSink};
use rows::{Line, holds};
use std::alloc::Global;
use std::io::{self, ErrorKind, Write};
use std::test::Fail;
use test_plugins::languages::language;

/// How a write fails.
#[derive(Clone, Copy, Debug)]
enum Fault {
    /// It takes nothing.
    Nothing,
    /// It says that it was interrupted.
    Interrupted,
    /// It says that the other end is gone.
    Gone,
}

const FAULTS: [Fault; 3] = [Fault::Nothing, Fault::Interrupted, Fault::Gone];

/// Takes a byte a write, and fails at one of them alone.
#[derive(Drop)]
struct Counting {
    bytes: Vec<u8>,
    calls: usize,
    failing: usize,
    fault: Fault,
}

impl Counting {
    /// Returns a writer that fails after that many bytes.
    fn new(alloc: Global, failing: usize, fault: Fault) -> Counting {
        Counting {
            bytes: Vec::new(alloc),
            calls: 0,
            failing,
            fault,
        }
    }
}

impl Write for Counting {
    fn write(&mut self, buf: &[u8]) -> io::Result<usize> {
        let call = self.calls;
        self.calls = call.saturating_add(1);
        if call == self.failing {
            return match self.fault {
                Fault::Nothing => Ok(0),
                Fault::Interrupted => Err(io::Error::from(ErrorKind::Interrupted)),
                Fault::Gone => Err(io::Error::from(ErrorKind::BrokenPipe)),
            };
        }
        let taken = buf.len().min(1);
        self.bytes.extend_from_slice(&buf[..taken])?;
        Ok(taken)
    }

    fn flush(&mut self) -> io::Result<()> {
        Ok(())
    }
}

/// Returns `true` if a writer of a row is called once for each byte that it takes, and once more for its fault.
fn is_asked(writer: &Counting, row: &Line) -> bool {
    match row.text(1) {
        Some(text) => writer.calls == text.len().min(writer.failing.saturating_add(1)),
        None => false,
    }
}

impl Failing for Fault {
    /// Returns `true` if that is so, and the writer is not called after its fault.
    fn holds<X, T, B, R>(
        self,
        alloc: Global,
        row: &Line,
        page: &Template<X, T, B>,
        bytes: usize,
        call: Call,
        around: R,
    ) -> bool
    where
        X: Filter,
        T: Discreet<()>,
        B: Discreet<()>,
        R: Runtime<Register = ()> + Drop,
        R::Store: PartialStore<X, T, B>,
    {
        let mut writer = Counting::new(alloc, bytes, self);
        let mut sink = WriterSink::new(&mut writer);
        let (answer, around) = rendered(alloc, page, &mut sink, call, around);
        let _ = sink.into_inner();
        is_asked(&writer, row)
            && is_beginning(alloc, row, bytes, writer.bytes.as_slice(), &answer, &around)
    }
}

#[test]
fn a_writer_is_not_asked_after_its_fault(rt: HostRuntime) -> Result<(), Fail> {
    let wanted = (41 + 13) * 4 * 3;
    holds(
        all_hold(rt.alloc(), language(rt.alloc()), &FAULTS, wanted),
        "each writer is tried, and leaves the beginning",
    )
}

/// Returns `true` if each put to a writer that fails at its second call asks the writer once.
fn asks_once(mut writer: Counting) -> bool {
    let mut sink = WriterSink::new(&mut writer);
    let is_put = sink.put(b"abc") == Ok(1)
        && sink.put(b"bc") == Err(SinkFault::Failed)
        && sink.put(b"bc") == Ok(1);
    let _ = sink.into_inner();
    is_put && writer.calls == 3 && writer.bytes.as_slice() == b"ab".as_slice()
}

#[test]
fn a_put_asks_its_writer_once(rt: HostRuntime) -> Result<(), Fail> {
    let alloc = rt.alloc();
    holds(
        asks_once(Counting::new(alloc, 1, Fault::Nothing))
            && asks_once(Counting::new(alloc, 1, Fault::Interrupted))
            && asks_once(Counting::new(alloc, 1, Fault::Gone)),
        "each put asks the writer once",
    )
}
