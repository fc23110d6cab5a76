//! The tests of the renderer for C.

mod pages;
