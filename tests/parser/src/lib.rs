//! The tests of chains made by hand, and of the parser's cursors, as tables of rows.

mod attempts;
mod blocks;
mod chains;
mod elements;
mod expressions;
mod filters;
mod languages;
mod made;
mod one_by_one;
mod read_elements;
mod reflections;
mod rows;
mod runtimes;
mod shown;
mod taken;
mod tokens;
mod variables;
