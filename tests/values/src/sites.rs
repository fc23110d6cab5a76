//! Where an error is: in a node of the text at hand, and in the partials around it.
use liquid_error::{Error, Place, Spot};
use rows::{Line, is_text, rows_hold};
use serde_json::Value as Json;
use std::alloc::{AllocError, Global};
use std::test::Fail;

/// What an error meets on its way out, where it is then in the text at hand, and where it is in the partials. It meets
/// nodes, by the bytes that are left there, texts that render a partial, by the partial's name, and places.
const ROWS: &str = r#"[[], "nowhere", ""]
[[5], "5 left", ""]
[[5, 7], "5 left", ""]
[[0], "nowhere", ""]
[[0, 7], "7 left", ""]
[[5, "p"], "nowhere", "p: 5 left; "]
[[5, "p", 7], "7 left", "p: 5 left; "]
[[5, "p", 7, 9], "7 left", "p: 5 left; "]
[[5, "p", 7, "q"], "nowhere", "p: 5 left; q: 7 left; "]
[["p"], "nowhere", ""]
[["p", 7], "7 left", ""]
[[5, "p", "q"], "nowhere", "p: 5 left; "]
[[[2, 3]], "line 2, column 3", ""]
[[[2, 3], 5], "line 2, column 3", ""]
[[[2, 3], "p", 7], "7 left", "p: line 2, column 3; "]"#;

/// Returns the place of a line and a column.
fn place_of(json: &Json) -> Option<Place> {
    Some(Place {
        line: usize::try_from(json.get(0)?.as_u64()?).ok()?,
        column: usize::try_from(json.get(1)?.as_u64()?).ok()?,
    })
}

/// Returns the error after what it meets.
fn after(alloc: Global, error: Error, met: &Json) -> Option<Error> {
    match met {
        Json::String(partial) => Some(error.within(alloc, partial.as_str())),
        Json::Array(_) => Some(error.or_place(place_of(met)?)),
        _ => Some(error.at_node(u32::try_from(met.as_u64()?).ok()?)),
    }
}

/// Returns the error after all that it meets.
fn after_all(alloc: Global, all: &Vec<Json>) -> Option<Error> {
    let mut error = Error::with_msg(alloc, "a");
    for met in all {
        error = after(alloc, error, met)?;
    }
    Some(error)
}

/// Returns the text of a position.
fn text_of(alloc: Global, spot: Spot) -> Result<String, AllocError> {
    match spot {
        Spot::Place(Place { line, column }) => { format!(in alloc; "line {line}, column {column}") }
        Spot::Left(left) => format!(in alloc; "{left} left"),
    }
}

/// Returns the text of where an error is in the text at hand.
fn here_of(alloc: Global, error: &Error) -> Result<String, AllocError> {
    match error.here() {
        Some(spot) => text_of(alloc, spot),
        None => String::from_str(alloc, "nowhere"),
    }
}

/// Returns the text of where an error is in partials.
fn sites_of(alloc: Global, error: &Error) -> Result<String, AllocError> {
    let mut text = String::new(alloc);
    for site in error.sites() {
        text.push_str(site.partial())?;
        text.push_str(": ")?;
        text.push_str(text_of(alloc, site.spot())?.as_str())?;
        text.push_str("; ")?;
    }
    Ok(text)
}

/// Returns `true` if an error is where its row says.
fn row_holds(alloc: Global, row: &Line) -> bool {
    match (row.list(0), row.text(1), row.text(2)) {
        (Some(all), Some(here), Some(sites)) => match after_all(alloc, all) {
            Some(error) => {
                is_text(here_of(alloc, &error), here) && is_text(sites_of(alloc, &error), sites)
            }
            None => false,
        },
        _ => false,
    }
}

#[test]
fn errors_are_in_nodes_and_in_partials(rt: HostRuntime) -> Result<(), Fail> {
    rows_hold(rt.alloc(), ROWS, row_holds)
}
