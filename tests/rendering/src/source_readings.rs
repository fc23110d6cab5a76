//! When each kind of store reads the texts of its source.
use crate::kinds::{Eager, Kind, Lazy, OnDemand, store_of};
use crate::languages::plain_language;
use crate::partial_rows::{gets, has_its_names, requests, source};
use liquid_core::parser::{Language, Meant, ParseBlock, ParseFilter, ParseTag};
use liquid_core::partials::InMemorySource;
use liquid_core::{Filter, PartialStore};
use rows::holds;
use std::alloc::{AllocError, Global};
use std::cell::Cell;
use std::rc::Rc;
use std::test::Fail;
use test_plugins::CountingSource;

/// Returns the sources, which count how often they are asked.
fn counting(alloc: Global, asked: &Rc<Cell<u64>>) -> Option<CountingSource<InMemorySource>> {
    match source(alloc).zip(asked.clone().ok()) {
        Some((source, asked)) => Some(CountingSource { source, asked }),
        None => None,
    }
}

/// Returns `true` if a store reads no text beforehand, then one for each request of a name that has one, and none for a
/// name that is listed or unknown.
fn reads_on_demand<S, X, T, B>(alloc: Global, store: Option<S>, asked: &Cell<u64>) -> bool
where
    S: PartialStore<X, T, B> + Drop,
    X: Filter,
    T: Meant + Drop,
    B: Meant + Drop,
{
    match store {
        Some(mut store) => {
            asked.get() == 0
                && requests::<S, X, T, B>(alloc, &mut store, "p", true)
                && requests::<S, X, T, B>(alloc, &mut store, "p", true)
                && requests::<S, X, T, B>(alloc, &mut store, "none", false)
                && asked.get() == 2
                && gets::<S, X, T, B>(alloc, &mut store, "none", false)
                && has_its_names::<S, X, T, B>(alloc, &store)
                && asked.get() == 2
        }
        None => false,
    }
}

/// Returns `true` if a store has read each text, and reads none later.
fn reads_no_more<S, X, T, B>(alloc: Global, store: Option<S>, asked: &Cell<u64>) -> bool
where
    S: PartialStore<X, T, B> + Drop,
    X: Filter,
    T: Meant + Drop,
    B: Meant + Drop,
{
    match store {
        Some(mut store) => {
            asked.get() == 5
                && requests::<S, X, T, B>(alloc, &mut store, "p", true)
                && requests::<S, X, T, B>(alloc, &mut store, "none", false)
                && asked.get() == 5
        }
        None => false,
    }
}

/// Returns `true` if a store reads no text beforehand, then one for the first request of its name, even if it is
/// refused, and none for a name that is listed or unknown.
fn reads_once<S, X, T, B>(alloc: Global, store: Option<S>, asked: &Cell<u64>) -> bool
where
    S: PartialStore<X, T, B> + Drop,
    X: Filter,
    T: Meant + Drop,
    B: Meant + Drop,
{
    match store {
        Some(mut store) => {
            asked.get() == 5
                && gets::<S, X, T, B>(alloc, &mut store, "p", true)
                && requests::<S, X, T, B>(alloc, &mut store, "p", true)
                && requests::<S, X, T, B>(alloc, &mut store, "none", false)
                && asked.get() == 6
                && gets::<S, X, T, B>(alloc, &mut store, "bad", false)
                && requests::<S, X, T, B>(alloc, &mut store, "bad", false)
                && asked.get() == 7
                && gets::<S, X, T, B>(alloc, &mut store, "none", false)
                && has_its_names::<S, X, T, B>(alloc, &store)
                && asked.get() == 7
        }
        None => false,
    }
}

/// Returns a store of a kind of the sources, which count how often they are asked.
fn store<F, T, B, K>(
    alloc: Global,
    language: &Rc<Language<F, T, B>>,
    asked: &Rc<Cell<u64>>,
) -> Option<K::Store>
where
    F: ParseFilter,
    T: ParseTag<F>,
    B: ParseBlock<F>,
    K: Kind<CountingSource<InMemorySource>, F, T, B>,
{
    store_of::<CountingSource<InMemorySource>, F, T, B, K>(alloc, counting(alloc, asked), language)
}

/// Returns `true` if each kind of store reads its source when it says.
fn each_reads<F, T, B>(alloc: Global, language: Result<Rc<Language<F, T, B>>, AllocError>) -> bool
where
    F: ParseFilter,
    T: ParseTag<F>,
    B: ParseBlock<F>,
{
    match language.ok().zip(Rc::new(alloc, Cell::new(0)).ok()) {
        Some((language, asked)) => {
            reads_on_demand::<_, F::Filter, T::Node, B::Node>(
                alloc,
                store::<F, T, B, OnDemand>(alloc, &language, &asked),
                &asked,
            ) && reads_no_more::<_, F::Filter, T::Node, B::Node>(
                alloc,
                store::<F, T, B, Eager>(alloc, &language, &asked),
                &asked,
            ) && reads_once::<_, F::Filter, T::Node, B::Node>(
                alloc,
                store::<F, T, B, Lazy>(alloc, &language, &asked),
                &asked,
            )
        }
        None => false,
    }
}

#[test]
fn each_store_reads_its_source_when_it_says(rt: HostRuntime) -> Result<(), Fail> {
    holds(
        each_reads(rt.alloc(), plain_language(rt.alloc())),
        "each kind of store reads its source when it says",
    )
}
