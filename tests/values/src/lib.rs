//! The tests of dates, the grammar and errors, of scalars, values, views and JSON, and of paths, runtimes and scopes, most of
//! them as tables of rows.

mod date_texts;
mod dates;
mod error;
mod grammar;
mod json;
mod names;
mod scalar;
mod sites;
mod texts;
mod value;
mod views;
