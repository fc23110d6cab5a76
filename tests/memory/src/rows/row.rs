//! The rows.
use crate::problem::{Problem, both};
use crate::rows::stores::Request;
use liquid_core::model::{Object, to_object};
use liquid_core::partials::InMemorySource;
use liquid_core::runtime::{BuiltRuntime, RuntimeBuilder};
use serde_json::Value as Json;
use std::alloc::Global;

/// The rows, each a line of JSON: its name, its template, what it sees, what it writes and the text of its error.
/// `parent` is what is around a sandbox of it, and `left` are names with their text afterwards. `partials` are its
/// partials, or the template alone under the name `t`. `requests` are names that are requested from a store of them one
/// after another, each with what the partial is by itself.
static ROWS: &str =
    r#"{"name": "raw", "template": "{% raw %}{{ a }}{{% endraw %}{% raw %} x {%- endraw %}", "written": "{{ a }}{ x", "requests": [["t", "{{ a }}{ x"]]}
{"name": "frames", "template": "{% with x 1 %}a{% sbox %}b{% glob %}{% set g 2 %}{{ g }}{% endglob %}{% endsbox %}{{ x }}{% endwith %}", "written": "ab21", "requests": [["t", "ab21"]]}
{"name": "sandbox", "template": "{{ b }}{% set g 5 %}", "globals": {"b": 2}, "parent": {"s": "S"}, "left": {"g": "5"}, "written": "2", "requests": [["t", "liquid: Unknown variable\n  with:\n    requested variable=b\n"]]}
{"name": "alone", "template": "{{ b }}{% set g 5 %}", "globals": {"b": 2}, "left": {"g": "5"}, "written": "2", "requests": [["t", "liquid: Unknown variable\n  with:\n    requested variable=b\n"]]}
{"name": "partial", "template": "{% inc p %}", "depth": 3, "partials": [["p", "x{% inc p %}"]], "written": "xxx", "error": "liquid: Partials nest too deep\n", "requests": [["p", "xliquid: Partial does not exist\n  with:\n    name=p\n"]]}
{"name": "stores", "template": "{% inc p %}{% inc q %}{% inc p %}{% inc bad %}", "partials": [["p", "P"], ["q", "Q"], ["bad", "{% nope %}"]], "written": "PQP", "error": "liquid: Unknown tag. (line 1, column 4)\n  with:\n    requested=nope\n    available tags=brk, inc, set\n    available blocks=box, glob, raw, sbox, swap, with\n", "requests": [["p", "P"], ["q", "Q"], ["p", "P"], ["bad", "liquid: Unknown tag. (line 1, column 4)\n  with:\n    requested=nope\n    available tags=brk, inc, set\n    available blocks=box, glob, raw, sbox, swap, with\n"], ["bad", "liquid: Unknown tag. (line 1, column 4)\n  with:\n    requested=nope\n    available tags=brk, inc, set\n    available blocks=box, glob, raw, sbox, swap, with\n"], ["none", "liquid: Unknown partial-template\n  with:\n    requested partial=none\n    available partials=bad, p, q\n"]]}
{"name": "chain", "template": "{{ 5 | fail }}", "written": "", "error": "liquid: bad\nfrom: Filter error\n  with:\n    filter=fail\n    input=5\n", "requests": [["t", "liquid: bad\nfrom: Filter error\n  with:\n    filter=fail\n    input=5\n"]]}
{"name": "captured", "template": "{% twice %}a{{ b }}{% twice %}c{% endtwice %}{% endtwice %}d", "globals": {"b": 2}, "written": "a2cca2ccd"}
{"name": "uncaptured", "template": "x{% twice %}a{{ none }}{% endtwice %}y", "written": "x", "error": "liquid: Unknown variable\n  with:\n    requested variable=none\n"}
{"name": "leak", "template": "{% leak s 1 %}", "parent": {"s": "S"}, "written": "S"}
{"name": "no_leak", "template": "{% leak s 1 %}", "written": ""}
{"name": "filter", "template": "{{ a | nope }}", "is_read": false, "written": "", "error": "liquid: Unknown filter (line 1, column 8)\n  with:\n    requested filter=nope\n    available filters=append, fail\n", "requests": [["t", "liquid: Unknown filter (line 1, column 8)\n  with:\n    requested filter=nope\n    available filters=append, fail\n"]]}"#;

/// A row.
#[derive(Drop)]
pub struct Row {
    json: Json,
}

impl Row {
    /// Returns the row of this name.
    pub fn named(alloc: Global, name: &str) -> Result<Row, Problem> {
        for line in ROWS.lines() {
            let row = Row {
                json: Json::from_str(alloc, line)?,
            };
            if row.text("name") == name {
                return Ok(row);
            }
            drop(row);
        }
        Err(Problem::Case)
    }

    fn text(&self, name: &str) -> &str {
        match self.json.get(name) {
            Some(member) => member.as_str().unwrap_or(""),
            None => "",
        }
    }

    pub fn template(&self) -> &str {
        self.text("template")
    }

    pub fn written(&self) -> &str {
        self.text("written")
    }

    pub fn error(&self) -> &str {
        self.text("error")
    }

    fn object(&self, alloc: Global, name: &str) -> Result<Object, Problem> {
        match self.json.get(name) {
            Some(member) => Ok(to_object(alloc, member)?),
            None => Ok(Object::new(alloc)),
        }
    }

    /// Returns what the template sees.
    pub fn globals(&self, alloc: Global) -> Result<Object, Problem> {
        self.object(alloc, "globals")
    }

    /// Returns what is around a sandbox.
    pub fn parent(&self, alloc: Global) -> Result<Object, Problem> {
        self.object(alloc, "parent")
    }

    /// Returns the names that the row leaves, with their values.
    pub fn left(&self, alloc: Global) -> Result<Object, Problem> {
        self.object(alloc, "left")
    }

    /// Returns the number of partials that may be nested.
    pub fn depth(&self) -> u32 {
        match self.json.get("depth") {
            Some(depth) => match depth.as_u64() {
                Some(depth) => u32::try_from(depth).unwrap_or(0),
                None => 0,
            },
            None => 32,
        }
    }

    /// Returns a runtime of these globals over a store.
    pub fn runtime<S: Drop>(
        &self,
        alloc: Global,
        globals: Object,
        store: S,
    ) -> BuiltRuntime<(), S> {
        let depth = self.depth();
        RuntimeBuilder::new(alloc)
            .set_globals(globals)
            .set_partials(store)
            .set_depth(depth)
            .build()
    }

    /// Adds the partials to a source.
    fn add_partials(&self, alloc: Global, source: &mut InMemorySource) -> Result<(), Problem> {
        match self.json.get("partials") {
            None => add_partial(alloc, source, "t", self.template()),
            Some(Json::Array(partials)) => add_each(alloc, source, partials.as_slice()),
            Some(_) => Err(Problem::Row),
        }
    }

    /// Returns the partials.
    pub fn source(&self, alloc: Global) -> Result<InMemorySource, Problem> {
        let mut source = InMemorySource::new(alloc);
        match self.add_partials(alloc, &mut source) {
            Ok(()) => Ok(source),
            Err(problem) => {
                drop(source);
                Err(problem)
            }
        }
    }

    /// Returns the names that are requested from a store, each with what the partial is by itself.
    pub fn requests(&self, alloc: Global) -> Result<Vec<Request>, Problem> {
        match self.json.get("requests") {
            Some(Json::Array(list)) => requests_of(alloc, list.as_slice()),
            _ => Err(Problem::Row),
        }
    }
}

/// Adds the partials of a list to a source.
fn add_each(alloc: Global, source: &mut InMemorySource, partials: &[Json]) -> Result<(), Problem> {
    for partial in partials {
        add_partial(alloc, source, text_at(partial, 0), text_at(partial, 1))?;
    }
    Ok(())
}

fn add_partial(
    alloc: Global,
    source: &mut InMemorySource,
    name: &str,
    text: &str,
) -> Result<(), Problem> {
    let name = String::from_str(alloc, name)?;
    let text = String::from_str(alloc, text)?;
    source.add(name, text)?;
    Ok(())
}

fn text(alloc: Global, text: &str) -> Result<String, Problem> {
    Ok(String::from_str(alloc, text)?)
}

fn request(alloc: Global, json: &Json) -> Result<Request, Problem> {
    let name = text(alloc, text_at(json, 0));
    let (name, answer) = both(name, text(alloc, text_at(json, 1)))?;
    Ok(Request { name, answer })
}

fn add_requests(alloc: Global, requests: &mut Vec<Request>, list: &[Json]) -> Result<(), Problem> {
    for json in list {
        requests.push(request(alloc, json)?)?;
    }
    Ok(())
}

fn requests_of(alloc: Global, list: &[Json]) -> Result<Vec<Request>, Problem> {
    let mut requests = Vec::new(alloc);
    match add_requests(alloc, &mut requests, list) {
        Ok(()) => Ok(requests),
        Err(problem) => {
            drop(requests);
            Err(problem)
        }
    }
}

fn text_at(list: &Json, place: usize) -> &str {
    match list.get(place) {
        Some(member) => member.as_str().unwrap_or(""),
        None => "",
    }
}
