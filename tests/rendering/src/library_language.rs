//! The language of the tag library, and tables of rows in it.
use crate::pages::{Table, tables_hold};
use liquid_core::parser::Language;
use std::alloc::{AllocError, Global};
use std::test::Fail;
use test_plugins::Filters;

pub(crate) type LibraryLanguage = Language<Filters, liquid_tags::Tags, liquid_tags::Blocks>;

/// Returns the library's language with the filters of the tests.
pub(crate) fn library_language(alloc: Global) -> Result<LibraryLanguage, AllocError> {
    liquid_tags::language(alloc, test_plugins::languages::filters(alloc)?)
}

/// Fails for the first row of tables in the language of the tag library that does not pass. With `each_store`, over each
/// kind of store.
pub(crate) fn library_tables_hold(
    alloc: Global,
    tables: &[Table<'_>],
    each_store: bool,
) -> Result<(), Fail> {
    tables_hold(alloc, tables, each_store, library_language(alloc))
}
