//! The stores of a row's partials, of two kinds, in any language.
use liquid_core::PartialStore;
use liquid_core::parser::{Language, ParseBlock, ParseFilter, ParseTag};
use liquid_core::partials::{
    EagerCompiler, EagerStore, InMemorySource, OnDemandCompiler, OnDemandStore, PartialCompiler,
};
use rows::Row;
use serde_json::Value as Json;
use std::alloc::{AllocError, Global};
use std::rc::Rc;

/// A kind of store.
pub(crate) trait Kind<F: ParseFilter, T: ParseTag<F>, B: ParseBlock<F>> {
    type Store: PartialStore<F::Filter, T::Node, B::Node> + Drop;

    /// Returns a store of these texts.
    fn store(
        alloc: Global,
        source: InMemorySource,
        language: &Rc<Language<F, T, B>>,
    ) -> Result<Self::Store, AllocError>;
}

/// Partials that are parsed at each request.
pub(crate) struct OnDemand;

impl<F, T, B> Kind<F, T, B> for OnDemand
where
    F: ParseFilter,
    T: ParseTag<F>,
    B: ParseBlock<F>,
{
    type Store = OnDemandStore<InMemorySource, F, T, B>;

    fn store(
        alloc: Global,
        source: InMemorySource,
        language: &Rc<Language<F, T, B>>,
    ) -> Result<OnDemandStore<InMemorySource, F, T, B>, AllocError> {
        OnDemandCompiler::new(source).compile(alloc, language.clone()?)
    }
}

/// Partials that are parsed beforehand.
pub(crate) struct Eager;

impl<F, T, B> Kind<F, T, B> for Eager
where
    F: ParseFilter,
    T: ParseTag<F>,
    B: ParseBlock<F>,
{
    type Store = EagerStore<InMemorySource, F, T, B>;

    fn store(
        alloc: Global,
        source: InMemorySource,
        language: &Rc<Language<F, T, B>>,
    ) -> Result<EagerStore<InMemorySource, F, T, B>, AllocError> {
        EagerCompiler::new(source).compile(alloc, language.clone()?)
    }
}

/// Adds a partial, and returns whether another one had its name.
fn add(
    alloc: Global,
    source: &mut InMemorySource,
    name: &str,
    text: &str,
) -> Result<bool, AllocError> {
    let name = String::from_str(alloc, name)?;
    source.add(name, String::from_str(alloc, text)?)
}

/// Adds a partial of a row. Returns `false` if it is not a name and a text, or if memory runs out.
fn add_partial(alloc: Global, source: &mut InMemorySource, partial: &Json) -> bool {
    match (partial.get(0), partial.get(1)) {
        (Some(Json::String(name)), Some(Json::String(text))) => {
            add(alloc, source, name.as_str(), text.as_str()).is_ok()
        }
        _ => false,
    }
}

/// Adds the partials of a row. Returns `false` if one of them could not be added.
fn add_partials(alloc: Global, source: &mut InMemorySource, row: &Row) -> bool {
    if let Some(Json::Array(partials)) = row.member("partials") {
        for partial in partials {
            if !add_partial(alloc, source, partial) {
                return false;
            }
        }
    }
    true
}

/// Returns the partials of a row, or `None` if one of them could not be added.
pub(crate) fn source(alloc: Global, row: &Row) -> Option<InMemorySource> {
    let mut source = InMemorySource::new(alloc);
    if add_partials(alloc, &mut source, row) {
        Some(source)
    } else {
        None
    }
}
