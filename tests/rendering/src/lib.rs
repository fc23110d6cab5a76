//! The tests that cross the crates, as tables of rows: templates of the test plug-ins and of the tag library by each
//! call that renders them, stores, sinks, and what plug-ins say about themselves.

mod counted_filter;
mod counter_rows;
mod dividers;
mod escapes;
mod given;
mod hostile_rows;
mod items_by_place;
mod joins;
mod kinds;
mod languages;
mod library_language;
mod library_reflections;
mod limits;
mod nested;
mod node_rows;
mod nodes;
mod nothing;
mod pages;
mod partial_rows;
mod plain_pages;
mod reflections;
mod renderings;
mod scopes;
mod shared_names;
mod sink_calls;
mod sink_given;
mod sink_rows;
mod sinks;
mod source_readings;
mod tag_rows;
mod tags_alone;
mod text_rows;
mod texts;
mod watches;
mod writers;
