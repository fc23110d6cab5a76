//! The standard filters: a call for each, by its name.
use crate::growths::{MOST, Run, Seen, Verdict, taken};
use crate::problem::{Problem, both};
use liquid_core::Error;
use liquid_core::model::{Value, ValueCow, ValueRender, to_value};
use liquid_filters::{CallArguments, FilterKind, StdKind, filters};
use serde_json::Value as Json;
use std::alloc::{AllocError, Global};

/// The standard filters, each with its input and its arguments as JSON, and the text of what it returns, up to a bar at
/// a line's end.
static ROWS: &str = r#"append | "rain" | ["bow"] | rainbow|
base64_decode | "cmFpbg==" | [] | rain|
base64_encode | "rain" | [] | cmFpbg==|
base64_url_safe_decode | "fn5-" | [] | ~~~|
base64_url_safe_encode | "~~~" | [] | fn5-|
capitalize | "rAIN fell" | [] | Rain fell|
downcase | "RAIN" | [] | rain|
escape | "a < b" | [] | a &lt; b|
escape_once | "&lt; & >" | [] | &lt; &amp; &gt;|
h | "a < b" | [] | a &lt; b|
lstrip | " rain " | [] | rain |
newline_to_br | "rain\nwind" | [] | rain<br />
wind|
prepend | "bow" | ["rain"] | rainbow|
remove | "a-b-c" | ["-"] | abc|
remove_first | "a-b-c" | ["-"] | ab-c|
remove_last | "a-b-c" | ["-"] | a-bc|
replace | "a-b-c" | ["-", "+"] | a+b+c|
replace_first | "a-b-c" | ["-", "+"] | a+b-c|
replace_last | "a-b-c" | ["-", "+"] | a-b+c|
rstrip | " rain " | [] |  rain|
slice | "rain" | [1, 2] | ai|
split | "a-b-c" | ["-"] | abc|
strip | " rain " | [] | rain|
strip_html | "<b>rain</b>" | [] | rain|
strip_newlines | "rain\nwind" | [] | rainwind|
truncate | "rain and wind" | [8] | rain ...|
truncatewords | "rain and wind" | [2] | rain and...|
upcase | "straße" | [] | STRASSE|
url_decode | "rain+%26+wind" | [] | rain & wind|
url_encode | "rain & wind" | [] | rain+%26+wind|
compact | [1, null, 2] | [] | 12|
concat | [1, 2] | [[3]] | 123|
find | [{"t": 1}, {"t": 2}] | ["t", 2] | t2|
find_index | [{"t": 1}, {"t": 2}] | ["t", 2] | 1|
first | ["Mon", "Tue"] | [] | Mon|
has | [{"t": 1}, {"t": 2}] | ["t", 2] | true|
join | ["Mon", "Tue"] | [", "] | Mon, Tue|
last | ["Mon", "Tue"] | [] | Tue|
map | [{"t": "Rain"}, {"t": "Wind"}] | ["t"] | RainWind|
reject | [{"t": 1}, {"t": 2}] | ["t", 2] | t1|
reverse | [1, 2, 3] | [] | 321|
sort | ["b", "a"] | [] | ab|
sort_natural | ["b", "A", "c"] | [] | Abc|
sort_numeric | ["10", 9] | [] | 910|
sum | [1, 2, 1] | [] | 4|
uniq | [1, 2, 1] | [] | 12|
where | [{"t": 1}, {"t": 2}] | ["t", 2] | t2|
abs | "-7.50" | [] | 7.50|
at_least | 3 | [5] | 5|
at_most | 3 | [5] | 3|
ceil | 3 | [] | 3|
decimal | "1234.5" | [2, ",", "."] | 1.234,50|
divided_by | -7 | [2] | -4|
floor | 3 | [] | 3|
from_minor | 1250 | [2] | 12.50|
minus | 41 | [1] | 40|
modulo | -7 | [2] | 1|
plus | "12.50" | [1] | 13.50|
round | 1250 | [-2] | 1300|
times | 6 | [7] | 42|
to_minor | "12.50" | [2] | 1250|
default | null | ["nobody"] | nobody|
json | {"a": [1, "b"]} | [] | {"a":[1,"b"]}|
size | "straße" | [] | 6|
date | "November 27, 2026" | ["%d %B %Y"] | 27 November 2026|
"#;

/// A filter, its input, its arguments, and the text of what it returns.
type Row = (&'static str, &'static str, &'static str, &'static str);

/// Returns the parts of a row.
fn parts(row: &'static str) -> Option<Row> {
    let (name, rest) = row.split_once(" | ")?;
    let (input, rest) = rest.split_once(" | ")?;
    let (arguments, wanted) = rest.split_once(" | ")?;
    Some((name, input, arguments, wanted))
}

/// Returns the parts of a row, or `None` if it is the row of another filter.
fn parts_for(row: &'static str, word: &str) -> Option<Row> {
    let parts = parts(row)?;
    if parts.0 == word { Some(parts) } else { None }
}

/// Returns the row of the filter of this name.
fn row(word: &str) -> Result<Row, Problem> {
    for row in ROWS.split("|\n") {
        if let Some(parts) = parts_for(row, word) {
            return Ok(parts);
        }
    }
    Err(Problem::Case)
}

/// Returns the filter of this name.
fn kind(alloc: Global, name: &str) -> Result<StdKind, Problem> {
    let registry = filters(alloc, None)?;
    let kind = match registry.get(name) {
        Some(plugin) => Some(plugin.kind),
        None => None,
    };
    drop(registry);
    match kind {
        Some(kind) => Ok(kind),
        None => Err(Problem::Row),
    }
}

fn value(alloc: Global, json: &str) -> Result<Value, Problem> {
    let json = Json::from_str(alloc, json)?;
    let value = to_value(alloc, &json);
    drop(json);
    Ok(value?)
}

/// Puts copies of these items after other arguments.
fn add_copies<'s>(all: &mut Vec<ValueCow<'s>>, items: &[Value]) -> Result<(), AllocError> {
    for item in items {
        all.push(ValueCow::Owned(item.clone()?))?;
    }
    Ok(())
}

/// Returns copies of these items as arguments.
fn copies(alloc: Global, items: &[Value]) -> Result<Vec<ValueCow<'static>>, Problem> {
    let mut all = Vec::new(alloc);
    match add_copies(&mut all, items) {
        Ok(()) => Ok(all),
        Err(error) => {
            drop(all);
            Err(Problem::from(error))
        }
    }
}

/// Returns the items of a list as arguments.
fn arguments_of(alloc: Global, list: &Value) -> Result<Vec<ValueCow<'static>>, Problem> {
    match list {
        Value::Array(items) => copies(alloc, items.as_array()),
        _ => Err(Problem::Row),
    }
}

/// Returns the arguments of a list.
fn arguments(alloc: Global, json: &str) -> Result<Vec<ValueCow<'static>>, Problem> {
    let list = value(alloc, json)?;
    let arguments = arguments_of(alloc, &list);
    drop(list);
    arguments
}

/// Compares a value's text with the one that is wanted.
fn value_verdict(alloc: Global, value: Value, wanted: &str) -> Result<Verdict, Problem> {
    let text = ValueRender::new(&value).to_string(alloc);
    drop(value);
    Ok(Verdict::Whole.only_if(text?.as_str() == wanted))
}

/// Compares a result with the text that is wanted.
fn verdict_of(
    alloc: Global,
    answer: Result<Value, Error>,
    wanted: &str,
) -> Result<Verdict, Problem> {
    match answer {
        Ok(value) => value_verdict(alloc, value, wanted),
        Err(error) => {
            let is_memory = error.is_memory();
            drop(error);
            Ok(if is_memory {
                Verdict::Memory
            } else {
                Verdict::Other
            })
        }
    }
}

/// Calls the filter after that many boxes.
fn run(
    alloc: Global,
    kind: &StdKind,
    input: &Value,
    given: &Vec<ValueCow<'static>>,
    wanted: &str,
    boxes: usize,
) -> Result<Run, Problem> {
    let arguments = CallArguments {
        positional: given.as_slice(),
        keyword: &[],
    };
    let before = taken(alloc, boxes);
    let answered = kind.answer(alloc, input, &arguments);
    let after = taken(alloc, MOST);
    let verdict = verdict_of(alloc, answered, wanted)?;
    Ok(Run {
        before,
        after,
        verdict,
    })
}

/// Calls the filter with these arguments after that many boxes, and then once more.
fn seen(
    alloc: Global,
    kind: &StdKind,
    input: &Value,
    given: &Vec<ValueCow<'static>>,
    wanted: &str,
    boxes: usize,
) -> Result<Seen, Problem> {
    let first = run(alloc, kind, input, given, wanted, boxes);
    let next = run(alloc, kind, input, given, wanted, 0);
    Seen::of(first, next)
}

/// Calls the filter after that many boxes, and then once more.
pub fn tried(alloc: Global, word: &str, boxes: usize) -> Result<Seen, Problem> {
    let (_, input, given, wanted) = row(word)?;
    let kind = kind(alloc, word)?;
    let (input, given) = both(value(alloc, input), arguments(alloc, given))?;
    let seen = seen(alloc, &kind, &input, &given, wanted, boxes);
    drop(given);
    drop(input);
    seen
}
