//! A sink that takes one byte with each put and fails at a chosen put, for every put of each row.
use crate::sink_calls::{Call, Failing, all_hold, rendered};
use crate::sink_given::is_beginning;
use liquid_core::runtime::{Runtime, Template};
use liquid_core::{Discreet, Filter, PartialStore};
use rows::{Line, holds};
use std::alloc::Global;
use std::test::Fail;
use test_plugins::dripping::Dripping;
use test_plugins::languages::language;

/// Sinks that take one byte with each put.
#[derive(Clone, Copy)]
struct Drips;

impl Failing for Drips {
    fn holds<X, T, B, R>(
        self,
        alloc: Global,
        row: &Line,
        page: &Template<X, T, B>,
        bytes: usize,
        call: Call,
        around: R,
    ) -> bool
    where
        X: Filter,
        T: Discreet<()>,
        B: Discreet<()>,
        R: Runtime<Register = ()> + Drop,
        R::Store: PartialStore<X, T, B>,
    {
        let mut sink = Dripping::new(alloc, bytes as u64);
        let (answer, around) = rendered(alloc, page, &mut sink, call, around);
        is_beginning(alloc, row, bytes, sink.as_bytes(), &answer, &around)
    }
}

#[test]
fn a_beginning_stays_wherever_a_sink_fails(rt: HostRuntime) -> Result<(), Fail> {
    // 41 bytes in thirteen texts, of which each fails at every byte and once at none, in four calls
    let wanted = (41 + 13) * 4;
    holds(
        all_hold(rt.alloc(), language(rt.alloc()), &[Drips], wanted),
        "each put is tried, and leaves the beginning",
    )
}
