//! The tests of Jekyll's filters, each called as a function of values. Each table is one text of lines, a row each.

mod answers;
mod conditions;
mod dates;
mod keys;
mod lists;
mod named;
mod reflections;
mod texts;
mod typography;
