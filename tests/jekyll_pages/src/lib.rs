//! The tests of texts as Jekyll's authors write them.

mod sources;
mod texts;
