//! A language with a block that escapes and nests.

use crate::languages::registry_of;
use liquid_core::parser::Language;
use std::alloc::{AllocError, Global};
use test_plugins::languages::language;
use test_plugins::{Filters, Nested, Tags};

/// Returns the language of the test plug-ins with this block alone.
pub(crate) fn nested_language(
    alloc: Global,
) -> Result<Language<Filters, Tags, Nested>, AllocError> {
    let blocks = registry_of(alloc, &[("raw", Nested)])?;
    let plain = language(alloc)?;
    Ok(Language {
        filters: plain.filters,
        tags: plain.tags,
        blocks,
    })
}
