//! The stores of a row's partials, of each kind, in any language.
use crate::given::text_at;
use liquid_core::PartialStore;
use liquid_core::parser::{Language, ParseBlock, ParseFilter, ParseTag};
use liquid_core::partials::{
    EagerCompiler, EagerStore, InMemorySource, LazyCompiler, LazyStore, OnDemandCompiler,
    OnDemandStore, PartialCompiler, PartialSource,
};
use rows::Row;
use serde_json::Value as Json;
use std::alloc::{AllocError, Global};
use std::rc::Rc;

/// A kind of store of the texts of a source.
pub(crate) trait Kind<S: PartialSource, F: ParseFilter, T: ParseTag<F>, B: ParseBlock<F>> {
    type Store: PartialStore<F::Filter, T::Node, B::Node> + Drop;

    /// Returns a store of these texts.
    fn store(
        alloc: Global,
        source: S,
        language: Rc<Language<F, T, B>>,
    ) -> Result<Self::Store, AllocError>;
}

pub(crate) struct OnDemand;

impl<S, F, T, B> Kind<S, F, T, B> for OnDemand
where
    S: PartialSource,
    F: ParseFilter,
    T: ParseTag<F>,
    B: ParseBlock<F>,
{
    type Store = OnDemandStore<S, F, T, B>;

    fn store(
        alloc: Global,
        source: S,
        language: Rc<Language<F, T, B>>,
    ) -> Result<OnDemandStore<S, F, T, B>, AllocError> {
        PartialCompiler::compile(OnDemandCompiler::new(source), alloc, language)
    }
}

pub(crate) struct Lazy;

impl<S, F, T, B> Kind<S, F, T, B> for Lazy
where
    S: PartialSource,
    F: ParseFilter,
    T: ParseTag<F>,
    B: ParseBlock<F>,
{
    type Store = LazyStore<S, F, T, B>;

    fn store(
        alloc: Global,
        source: S,
        language: Rc<Language<F, T, B>>,
    ) -> Result<LazyStore<S, F, T, B>, AllocError> {
        PartialCompiler::compile(LazyCompiler::new(source), alloc, language)
    }
}

pub(crate) struct Eager;

impl<S, F, T, B> Kind<S, F, T, B> for Eager
where
    S: PartialSource,
    F: ParseFilter,
    T: ParseTag<F>,
    B: ParseBlock<F>,
{
    type Store = EagerStore<S, F, T, B>;

    fn store(
        alloc: Global,
        source: S,
        language: Rc<Language<F, T, B>>,
    ) -> Result<EagerStore<S, F, T, B>, AllocError> {
        PartialCompiler::compile(EagerCompiler::new(source), alloc, language)
    }
}

/// Returns a store of a kind of the texts of a source, or `None` if there is no source or if memory runs out.
pub(crate) fn store_of<S, F, T, B, K>(
    alloc: Global,
    source: Option<S>,
    language: &Rc<Language<F, T, B>>,
) -> Option<K::Store>
where
    S: PartialSource,
    F: ParseFilter,
    T: ParseTag<F>,
    B: ParseBlock<F>,
    K: Kind<S, F, T, B>,
{
    match source.zip(language.clone().ok()) {
        Some((source, language)) => K::store(alloc, source, language).ok(),
        None => None,
    }
}

/// Adds a text under a name, and returns `true` if it takes the place of another.
pub(crate) fn add(
    alloc: Global,
    source: &mut InMemorySource,
    name: &str,
    text: &str,
) -> Result<bool, AllocError> {
    let name = String::from_str(alloc, name)?;
    source.add(name, String::from_str(alloc, text)?)
}

/// Adds a partial, and returns `false` for one that is not a name and a text, or if memory runs out.
fn is_added(alloc: Global, source: &mut InMemorySource, partial: &Json) -> bool {
    match (text_at(partial, 0), text_at(partial, 1)) {
        (Some(name), Some(text)) => add(alloc, source, name, text).is_ok(),
        _ => false,
    }
}

/// Returns the source of a list of partials, each a name and a text, of which a later one takes the place of an earlier
/// one of its name, or `None` for other JSON or if memory runs out.
pub(crate) fn source_of(alloc: Global, partials: &Json) -> Option<InMemorySource> {
    let partials = partials.as_array()?;
    let mut source = InMemorySource::new(alloc);
    for partial in partials {
        if !is_added(alloc, &mut source, partial) {
            return None;
        }
    }
    Some(source)
}

/// Returns the partials of a row.
pub(crate) fn source(alloc: Global, row: &Row) -> Option<InMemorySource> {
    match row.member("partials") {
        Some(partials) => source_of(alloc, partials),
        None => Some(InMemorySource::new(alloc)),
    }
}
