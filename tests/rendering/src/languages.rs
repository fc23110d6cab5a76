//! The languages of the test plug-ins, and tables of rows in them.
use crate::pages::{Table, tables_hold};
use liquid_core::parser::{Language, PluginRegistry};
use std::alloc::{AllocError, Global};
use std::rc::Rc;
use std::test::Fail;
use test_plugins::languages::language;
use test_plugins::{Blocks, Filters, HostileBlocks, HostileTags, Tags};

pub(crate) type PlainLanguage = Language<Filters, Tags, Blocks>;

/// Returns the language of the test plug-ins, to be shared.
pub(crate) fn plain_language(alloc: Global) -> Result<Rc<PlainLanguage>, AllocError> {
    Ok(Rc::new(alloc, language(alloc)?)?)
}

/// The language of plug-ins that are malicious.
pub(crate) type HostileLanguage = Language<Filters, HostileTags, HostileBlocks>;

/// Returns a registry of plug-ins, each under a name.
pub(crate) fn registry_of<P: Copy + Drop>(
    alloc: Global,
    plugins: &[(&str, P)],
) -> Result<PluginRegistry<P>, AllocError> {
    let mut registry = PluginRegistry::new(alloc);
    for (name, plugin) in plugins {
        registry.register(name, *plugin)?;
    }
    Ok(registry)
}

/// Fails for the first row of tables in the language of the test plug-ins that does not pass. With `each_store`, over each
/// kind of store.
pub(crate) fn plain_tables_hold(
    alloc: Global,
    tables: &[Table<'_>],
    each_store: bool,
) -> Result<(), Fail> {
    tables_hold(alloc, tables, each_store, language(alloc))
}

/// Fails for the first row of a table in a language of malicious plug-ins that does not pass.
pub(crate) fn hostile_table_holds(
    alloc: Global,
    table: Table<'_>,
    language: Result<HostileLanguage, AllocError>,
) -> Result<(), Fail> {
    tables_hold(alloc, &[table], false, language)
}
