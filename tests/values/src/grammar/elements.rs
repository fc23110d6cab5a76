//! Texts with the elements that the written rules give them, and places.
use crate::texts::is_count;
use liquid_grammar::{
    ChainText, Element, Fault, FaultKind, TagText, TokenKind, line_and_column, next_element,
};
use rows::{Line, holds, rows_hold};
use serde_json::Value as Json;
use std::alloc::Global;
use std::test::Fail;

// A text and the texts of its elements, in order. A tag's text follows `tag:`, an expression's follows `exp:`, and an
// invalid element's follows `bad:`. There are texts alone, elements, dashes that take whitespace, and openers that
// begin no element of the language.
const COVERS: &str = r#"["", []]
["a{b}c % }}", ["a{b}c % }}"]]
[" \t\r\n ", [" \t\r\n "]]
["  -{-", ["  -{-"]]
["Hello {{ name | upcase }}!", ["Hello ", "exp:{{ name | upcase }}", "!"]]
["{{ nil }}{{'{{'}}", ["exp:{{ nil }}", "exp:{{'{{'}}"]]
["{%if a<=b%}c{% endif %}", ["tag:{%if a<=b%}", "c", "tag:{% endif %}"]]
["a \n {{- b -}} \t c", ["a", "exp: \n {{- b -}} \t ", "c"]]
[" {%-b%} ", ["tag: {%-b%}", " "]]
[" {{b-}} ", [" ", "exp:{{b-}} "]]
["{{ ! }}", ["bad:{", "{ ! }}"]]
["a \n {{- ! }}", ["a", "bad: \n {", "{- ! }}"]]
["{% ! %}", ["bad:{", "% ! %}"]]
["{{{", ["bad:{", "bad:{", "{"]]
["{{a--}}", ["bad:{", "{a--}}"]]
["{{a b}}", ["bad:{", "{a b}}"]]
["{{ \"a\" | append, \"b\" }}", ["bad:{", "{ \"a\" | append, \"b\" }}"]]
["é{{ 'é漢' }}漢😀{{ é }}", ["é", "exp:{{ 'é漢' }}", "漢😀", "bad:{", "{ é }}"]]"#;

fn is_element(found: Element, element: &str) -> bool {
    match found {
        Element::Raw(text) => text == element,
        Element::Tag(TagText { text, .. }) => element.strip_prefix("tag:") == Some(text),
        Element::Expression(ChainText { text, .. }) => element.strip_prefix("exp:") == Some(text),
        Element::Invalid(text) => element.strip_prefix("bad:") == Some(text),
    }
}

/// Returns what is left of a text after the element that it begins with, if that is this one.
fn after_element<'a>(text: &'a str, element: &Json) -> Option<&'a str> {
    let (found, after) = next_element(text)?;
    if is_element(found, element.as_str()?) {
        Some(after)
    } else {
        None
    }
}

/// Returns `true` if a text has these elements, in order, and no others.
fn has_elements(text: &str, elements: &Vec<Json>) -> bool {
    let mut rest = text;
    for element in elements {
        match after_element(rest, element) {
            Some(after) => rest = after,
            None => return false,
        }
    }
    rest.is_empty()
}

fn covers(_alloc: Global, row: &Line) -> bool {
    match row.text(0).zip(row.list(1)) {
        Some((text, elements)) => has_elements(text, elements),
        None => false,
    }
}

#[test]
fn texts_have_these_elements(rt: HostRuntime) -> Result<(), Fail> {
    rows_hold(rt.alloc(), COVERS, covers)
}

/// Returns `true` if a tag has its name, its tokens, and no fault.
fn is_if_tag(tag: TagText<'_>) -> bool {
    tag.name == "if" && tag.tokens == " a %} b" && tag.fault.is_none()
}

#[test]
fn tags_have_parts(_rt: HostRuntime) -> Result<(), Fail> {
    let is_tag = match next_element(" {%- if a %} b") {
        Some((Element::Tag(tag), rest)) => is_if_tag(tag) && rest == " b",
        _ => false,
    };
    holds(is_tag, "a tag without a fault")
}

/// Returns the kind of the first fault.
fn kind_of(fault: Option<Fault<'_>>) -> Option<FaultKind> {
    match fault {
        Some(fault) => Some(fault.kind),
        None => None,
    }
}

/// Returns `true` if an expression is a variable whose decimal is a fault.
fn is_faulty(found: ChainText<'_>) -> bool {
    found.chain == "a[1.5] }}b"
        && found.kind == TokenKind::Variable
        && kind_of(found.fault) == Some(FaultKind::DecimalNotSupported)
}

#[test]
fn expressions_have_parts(_rt: HostRuntime) -> Result<(), Fail> {
    let is_expression = match next_element("{{ a[1.5] }}b") {
        Some((Element::Expression(found), rest)) => is_faulty(found) && rest == "b",
        _ => false,
    };
    holds(is_expression, "a variable, and a decimal that is a fault")
}

// A text, and the line and the column of its end.
const PLACES: &str = r#"["", 1, 1]
["ab", 1, 3]
["a\n", 2, 1]
["a\r\n\né漢\ud83d\ude00b", 3, 5]"#;

/// Returns `true` if a line and a column are those of the row.
fn is_at((line, column): (usize, usize), row: &Line) -> bool {
    is_count(line, row.number(1)) && is_count(column, row.number(2))
}

fn is_place(_alloc: Global, row: &Line) -> bool {
    match row.text(0) {
        Some(text) => is_at(line_and_column(text), row),
        None => false,
    }
}

#[test]
fn places(rt: HostRuntime) -> Result<(), Fail> {
    rows_hold(rt.alloc(), PLACES, is_place)
}
