//! The tests of what pages of files are made of: data, assignments, front matter, layouts and sites.

mod command;
mod data;
mod set;
mod sites;
