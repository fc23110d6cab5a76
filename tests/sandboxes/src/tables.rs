//! Tables of rows, in both languages.
use crate::kinds::{Eager, Kind, OnDemand};
use crate::sites::row_holds;
use liquid_core::Discreet;
use liquid_core::parser::{Language, ParseBlock, ParseFilter, ParseTag};
use rows::{Row, holds};
use std::alloc::Global;
use std::rc::Rc;
use std::test::Fail;
use test_plugins::Visits;

/// A table of rows, the parents that they are rendered over, whether their names are lenient, and the number of rows.
#[derive(Clone, Copy)]
pub(crate) struct Table<'a> {
    rows: &'a str,
    parents: &'a str,
    is_lenient: bool,
    count: usize,
}

impl<'a> Table<'a> {
    /// Returns a table of rows whose names are strict.
    pub(crate) fn strict(rows: &'a str, parents: &'a str, count: usize) -> Table<'a> {
        Table {
            rows,
            parents,
            is_lenient: false,
            count,
        }
    }

    /// Returns a table of rows whose names are lenient.
    pub(crate) fn lenient(rows: &'a str, parents: &'a str, count: usize) -> Table<'a> {
        Table {
            rows,
            parents,
            is_lenient: true,
            count,
        }
    }

    /// Returns a row of the table, or `None` for a line that is none.
    fn row(&self, alloc: Global, line: &str) -> Option<Row> {
        match Row::of(alloc, line) {
            Some(row) => Some(if self.is_lenient {
                row.leniently()
            } else {
                row
            }),
            None => None,
        }
    }
}

/// Returns `true` if a line of a table is a row that passes over stores of one kind.
fn line_holds<F, T, B, K>(
    alloc: Global,
    table: &Table<'_>,
    line: &str,
    language: &Rc<Language<F, T, B>>,
) -> bool
where
    F: ParseFilter,
    T: ParseTag<F>,
    B: ParseBlock<F>,
    T::Node: Discreet<Visits>,
    B::Node: Discreet<Visits>,
    K: Kind<F, T, B>,
{
    match table.row(alloc, line) {
        Some(row) => row_holds::<F, T, B, K>(alloc, &row, table.parents, language),
        None => false,
    }
}

/// Fails for the first row of a table that does not pass over stores of one kind, and for a table with another number of
/// rows.
fn table_holds<F, T, B, K>(
    alloc: Global,
    table: &Table<'_>,
    language: &Rc<Language<F, T, B>>,
) -> Result<(), Fail>
where
    F: ParseFilter,
    T: ParseTag<F>,
    B: ParseBlock<F>,
    T::Node: Discreet<Visits>,
    B::Node: Discreet<Visits>,
    K: Kind<F, T, B>,
{
    for line in table.rows.lines() {
        if !line_holds::<F, T, B, K>(alloc, table, line, language) {
            return Err(Fail::new(format_args!("this row doesn't hold: {line}")));
        }
    }
    holds(
        table.rows.lines().count() == table.count,
        "a table has all its rows",
    )
}

/// Fails for the first table that does not pass in a language over stores of one kind.
fn tables_hold<F, T, B, K>(
    alloc: Global,
    tables: &[Table<'_>],
    language: Language<F, T, B>,
) -> Result<(), Fail>
where
    F: ParseFilter,
    T: ParseTag<F>,
    B: ParseBlock<F>,
    T::Node: Discreet<Visits>,
    B::Node: Discreet<Visits>,
    K: Kind<F, T, B>,
{
    let language = Rc::new(alloc, language)?;
    for table in tables {
        table_holds::<F, T, B, K>(alloc, table, &language)?;
    }
    Ok(())
}

/// Fails for the first row of tables in the language of the test plug-ins that does not pass over partials that are
/// parsed on demand.
pub(crate) fn plain_tables_hold(alloc: Global, tables: &[Table<'_>]) -> Result<(), Fail> {
    let language = test_plugins::languages::language(alloc)?;
    tables_hold::<_, _, _, OnDemand>(alloc, tables, language)
}

/// Does the same in the language of the tag library, over partials that are parsed beforehand.
pub(crate) fn library_tables_hold(alloc: Global, tables: &[Table<'_>]) -> Result<(), Fail> {
    let filters = test_plugins::languages::filters(alloc)?;
    let language = liquid_tags::language(alloc, filters)?;
    tables_hold::<_, _, _, Eager>(alloc, tables, language)
}
