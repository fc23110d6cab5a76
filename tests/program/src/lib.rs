//! The tests of the program, over files and streams in memory. Each table is one text of lines, a row each.

mod byte_order_marks;
mod commands;
mod endings;
mod explain;
mod faults;
mod files;
mod globals;
mod help;
mod lenient;
mod limits;
mod long_commands;
mod notes;
mod partials;
mod places;
mod runs;
mod sandbox;
mod standard;
mod streams;
mod templates;
