//! The tests of the standard library: its filters, each called as a function of values; its tags and blocks, with
//! templates in isolation over parents that hide their names, with conditions by the same value, and templates of the tag
//! library in both languages; and the tests of the shop. Each table is one text of lines, a row each.

mod both_languages;
mod byte_pages;
mod call_rows;
mod desks;
mod filters;
mod isolated_rows;
mod library_rows;
mod own_tag_rows;
mod page_faults;
mod page_rows;
mod parents;
mod reflections;
mod same_value_rows;
mod shop_reviews;
mod shop_rows;
mod sites;
mod sources;
mod tag_rows;
mod text_pages;
mod text_tag_rows;
