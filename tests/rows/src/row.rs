//! A row of a table of templates.

use serde_json::Value as Json;
use std::alloc::Global;

/// A template and its result, an object of JSON: `template`, what it sees and the partials that it may render, what is
/// `written`, the text of its `error`, empty if it has none, and what is left of the names. The result of the row with
/// lenient names is its member `lenient`, or the same if it has none.
#[derive(Drop)]
pub struct Row {
    json: Json,
    is_lenient: bool,
}

impl Row {
    /// Returns the row of a line, or `None` for a line that is not JSON, for a row without a template or without what it
    /// writes, or if memory runs out.
    pub fn of(alloc: Global, line: &str) -> Option<Row> {
        match Json::from_str(alloc, line) {
            Ok(json) if json.get("template").is_some() && json.get("written").is_some() => Some(
                Row {
                    json,
                    is_lenient: false,
                },
            ),
            _ => None,
        }
    }

    /// Returns the same row with lenient names.
    pub fn leniently(self) -> Row {
        Row {
            json: self.json,
            is_lenient: true,
        }
    }

    /// Returns `true` if names are lenient.
    pub fn is_lenient(&self) -> bool {
        self.is_lenient
    }

    /// Returns a member, or `None` if the row has no such member.
    pub fn member(&self, name: &str) -> Option<&Json> {
        self.json.get(name)
    }

    /// Returns the text of a member, empty if the row has no such text.
    pub fn text(&self, name: &str) -> &str {
        match self.member(name) {
            Some(member) => member.as_str().unwrap_or(""),
            None => "",
        }
    }

    /// Returns the text of a name in a member, or `None` if it has none.
    pub fn text_within(&self, member: &str, name: &str) -> Option<&str> {
        match self.member(member) {
            Some(names) => match names.get(name) {
                Some(text) => text.as_str(),
                None => None,
            },
            None => None,
        }
    }

    /// Returns what the row writes, or the text of its error.
    fn answer(&self, name: &str) -> &str {
        if self.is_lenient && self.member("lenient").is_some() {
            self.text_within("lenient", name).unwrap_or("")
        } else {
            self.text(name)
        }
    }

    /// Returns the template.
    pub fn template(&self) -> &str {
        self.text("template")
    }

    /// Returns what is written.
    pub fn written(&self) -> &str {
        self.answer("written")
    }

    /// Returns the text of the error, empty if there is none.
    pub fn error(&self) -> &str {
        self.answer("error")
    }

    /// Returns `true` if a text is what the row writes, followed by its error's text.
    pub fn is_whole(&self, all: &str) -> bool {
        all.len() == self.written().len() + self.error().len()
            && all.starts_with(self.written())
            && all.ends_with(self.error())
    }
}
