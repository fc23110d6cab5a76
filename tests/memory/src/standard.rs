//! Pages of the standard tags and blocks: each is read and rendered by one call.
use crate::growths::{MOST, Run, Seen, Verdict, taken};
use crate::problem::{Problem, both};
use liquid_core::model::{Object, to_object};
use liquid_core::partials::InMemorySource;
use liquid_core::{Error, TextSink};
use liquid_filters::filters;
use liquid_std::render_page;
use serde_json::Value as Json;
use std::alloc::Global;

/// Pages, each with its name, its text and what it writes, up to a bar at a line's end.
static PAGES: &str =
    r#"cycle => {% for i in (1..3) %}{% cycle 'odd', 'even' %}{% cycle s: i, 9 %} {% endfor %} => odd1 even9 odd3 |
ifchanged => {% for i in twice %}{% ifchanged %}{{ i }}{% endifchanged %}{% endfor %} => 121|
capture => {% capture x %}a{{ s }}{% endcapture %}[{{ x }}{{ x | upcase }}] => [atextATEXT]|
counters => {% decrement c %}{% decrement c %}{% increment c %}{% echo c | plus: 1 %} => -1-2-20|
conditions => {% if s contains 'ex' and gap != 1 or false %}a{% endif %}{% unless twice %}b{% elsif s == 'text' %}c{% endunless %} => ac|
case => {% case s %}x{% when 1, 'text' or s %}a{% else %}b{% endcase %} => a|
loop => {% for i in twice reversed limit: 2 offset: 1 %}{{ i }}{{ forloop.last }};{% else %}n{% endfor %} => 2false;2true;|
tablerow => {% tablerow i in (1..2) cols: 1 %}{{ i }}{% endtablerow %} => <tr class="row1">
<td class="col1">1</td></tr>
<tr class="row2"><td class="col1">2</td></tr>
|
render => {% cycle 1, 2 %}{% include 'p' %}{% render 'p', z: s %}{% comment %}{{ x }}{% endcomment %} => 12text1text|
"#;

/// What each page sees.
const GLOBALS: &str = r#"{"s": "text", "twice": [1, 2, 2, 1], "z": "text", "gap": null}"#;

/// The partial `p`.
const PARTIAL: &str = "{% cycle 1, 2 %}{{ z }}";

/// The text of a page, and what it writes.
type Page = (&'static str, &'static str);

/// Returns the page of a row, or `None` if it is the row of another page.
fn page_in(row: &'static str, word: &str) -> Option<Page> {
    let (name, rest) = row.split_once(" => ")?;
    if name == word {
        rest.split_once(" => ")
    } else {
        None
    }
}

/// Returns the page of this name.
fn page(word: &str) -> Result<Page, Problem> {
    for row in PAGES.split("|\n") {
        if let Some(page) = page_in(row, word) {
            return Ok(page);
        }
    }
    Err(Problem::Case)
}

fn globals(alloc: Global) -> Result<Object, Problem> {
    let json = Json::from_str(alloc, GLOBALS)?;
    let globals = to_object(alloc, &json);
    drop(json);
    Ok(globals?)
}

fn partials(alloc: Global) -> Result<InMemorySource, Problem> {
    let name = String::from_str(alloc, "p")?;
    let text = String::from_str(alloc, PARTIAL)?;
    let mut partials = InMemorySource::new(alloc);
    match partials.add(name, text) {
        Ok(_) => Ok(partials),
        Err(error) => {
            drop(partials);
            Err(Problem::from(error))
        }
    }
}

/// Compares what was written, and how the call ended, with what the page writes.
fn verdict_of(written: &[u8], answer: Result<(), Error>, wanted: &str) -> Verdict {
    match answer {
        Ok(()) => Verdict::Whole.only_if(written == wanted.as_bytes()),
        Err(error) if error.is_memory() => {
            Verdict::Memory.only_if(wanted.as_bytes().starts_with(written))
        }
        Err(_) => Verdict::Other,
    }
}

/// Renders the page after that many boxes.
fn run(alloc: Global, page: Page, boxes: usize) -> Result<Run, Problem> {
    let names = both(globals(alloc), partials(alloc));
    let (filters, (globals, partials)) = both(filters(alloc, None).map_err(Problem::from), names)?;
    let mut sink = TextSink::new(alloc);
    let before = taken(alloc, boxes);
    let answer = render_page(alloc, page.0, globals, partials, filters, &mut sink);
    let after = taken(alloc, MOST);
    Ok(Run {
        before,
        after,
        verdict: verdict_of(sink.as_bytes(), answer, page.1),
    })
}

/// Renders the page after that many boxes, and then once more.
pub fn tried(alloc: Global, word: &str, boxes: usize) -> Result<Seen, Problem> {
    let page = page(word)?;
    let first = run(alloc, page, boxes);
    let next = run(alloc, page, 0);
    Seen::of(first, next)
}
