//! A row of a table.

use serde_json::Value as Json;
use std::alloc::Global;

/// A row: its line as JSON, an array if it has places.
#[derive(Drop)]
pub struct Line {
    json: Json,
}

impl Line {
    /// Returns the row of a line, or `None` for a line that is not JSON or if memory runs out.
    pub fn of(alloc: Global, line: &str) -> Option<Line> {
        match Json::from_str(alloc, line) {
            Ok(json) => Some(Line { json }),
            Err(_) => None,
        }
    }

    /// Returns what is at a place, or `None` if the row has no such place.
    pub fn member(&self, place: usize) -> Option<&Json> {
        self.json.get(place)
    }

    /// Returns the text at a place, or `None` if there is no text.
    pub fn text(&self, place: usize) -> Option<&str> {
        match self.member(place) {
            Some(member) => member.as_str(),
            None => None,
        }
    }

    /// Returns the list at a place, or `None` if there is no list.
    pub fn list(&self, place: usize) -> Option<&Vec<Json>> {
        match self.member(place) {
            Some(member) => member.as_array(),
            None => None,
        }
    }

    /// Returns the integer at a place, or `None` if there is no such number.
    pub fn number(&self, place: usize) -> Option<i64> {
        match self.member(place) {
            Some(member) => member.as_i64(),
            None => None,
        }
    }

    /// Returns the boolean at a place, or `None` if there is none.
    pub fn truth(&self, place: usize) -> Option<bool> {
        match self.member(place) {
            Some(member) => member.as_bool(),
            None => None,
        }
    }
}
