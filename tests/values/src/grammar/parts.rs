//! The parts that each walk over a matched text returns.
use super::told::told;
use liquid_grammar::{
    ArgumentStart, ChainStep, FilterStart, Head, IndexStart, Literal, TokenKind, TokenParts,
    TokenText, chain_step, close_bracket, expression_end, expression_start, next_argument,
    next_filter, next_index, next_token, value_head,
};
use rows::{Line, holds, rows_hold};
use std::alloc::Global;
use std::test::Fail;

#[test]
fn values_have_heads(_rt: HostRuntime) -> Result<(), Fail> {
    let number = Head::Literal(Literal::Integer("12"));
    holds(
        value_head("a.b") == Some((Head::Name("a"), ".b"))
            && value_head("12 b") == Some((number, " b"))
            && value_head("| a").is_none(),
        "a name, a literal and no value",
    )
}

#[test]
fn indexes_begin_by_a_dot_or_a_bracket(_rt: HostRuntime) -> Result<(), Fail> {
    holds(
        next_index(".b[0]", 0) == Some((IndexStart::Named("b"), "[0]"))
            && next_index("[0]", 0) == Some((IndexStart::Bracket, "0]"))
            && next_index(" b", 0).is_none(),
        "a dot, a bracket and no index",
    )?;
    holds(
        close_bracket(" ].c") == Some(".c") && close_bracket(".c").is_none(),
        "a bracket's end and no end",
    )
}

#[test]
fn filters_begin_by_a_bar(_rt: HostRuntime) -> Result<(), Fail> {
    let filter = FilterStart {
        place: "cut: 1, to: b",
        name: "cut",
        rest: ": 1, to: b",
    };
    holds(next_filter(" | cut: 1, to: b") == Some(filter), "a filter")
}

#[test]
fn arguments_begin_by_a_colon_or_a_comma(_rt: HostRuntime) -> Result<(), Fail> {
    let first = ArgumentStart {
        name: None,
        head: Head::Literal(Literal::Integer("1")),
        rest: ", to: b",
    };
    let second = ArgumentStart {
        name: Some("to"),
        head: Head::Name("b"),
        rest: "",
    };
    holds(
        next_argument(": 1, to: b", true) == Some(first)
            && next_argument(", to: b", false) == Some(second)
            && next_argument("", false).is_none(),
        "the first, a named one and none",
    )
}

// Arguments after a comma: the name, or nothing if the argument has none, the kind of what its value begins with and
// the text of that, and what is left after it. An identifier is a name only if a colon and a value follow it.
const ARGUMENTS: &str = r#"[", a: b", "a", "name", "b", ""]
[", a : b c", "a", "name", "b", " c"]
[" ,a:b", "a", "name", "b", ""]
[", a", null, "name", "a", ""]
[", a:", null, "name", "a", ":"]
[", a : | b", null, "name", "a", " : | b"]
[", a b: 1", null, "name", "a", " b: 1"]
[", a.b: 1", null, "name", "a", ".b: 1"]
[", a-: 1", null, "name", "a", "-: 1"]
[", a-b:\t1", "a-b", "integer", "1", ""]
[", nil", null, "nil", "", ""]
[", nil: nil.a", "nil", "nil", "", ".a"]
[", true: 1", "true", "integer", "1", ""]
[", true : }}", null, "true", "", " : }}"]
[", 'a': 1", null, "text", "a", ": 1"]
[", -1: 1", null, "integer", "-1", ": 1"]
[", : 1"]
[", "]
["a: b"]"#;

/// Returns what a value begins with, as the tables name it.
fn head_told<'a>(head: Head<'a>) -> (&'a str, &'a str) {
    match head {
        Head::Literal(literal) => told(literal),
        Head::Name(name) => ("name", name),
    }
}

/// Returns `true` if an argument has the name, the value and the rest of the row.
fn is_in_row(found: ArgumentStart<'_>, row: &Line) -> bool {
    found.name == row.text(1)
        && Some(head_told(found.head)) == row.text(2).zip(row.text(3))
        && Some(found.rest) == row.text(4)
}

/// Returns `true` if an argument is the row's, or if there is neither.
fn is_found(found: Option<ArgumentStart<'_>>, row: &Line) -> bool {
    match found {
        Some(found) => is_in_row(found, row),
        None => row.member(1).is_none(),
    }
}

fn is_argument(_alloc: Global, row: &Line) -> bool {
    match row.text(0) {
        Some(text) => is_found(next_argument(text, false), row),
        None => false,
    }
}

#[test]
fn arguments_have_a_name_where_a_colon_and_a_value_follow(rt: HostRuntime) -> Result<(), Fail> {
    rows_hold(rt.alloc(), ARGUMENTS, is_argument)
}

#[test]
fn expressions_begin_by_braces(_rt: HostRuntime) -> Result<(), Fail> {
    holds(
        expression_start("{{- a }}b") == Some("a }}b")
            && expression_start("{{a}}") == Some("a}}")
            && expression_start(" {{- a }}").is_none()
            && expression_start("{% a %}").is_none(),
        "a dash and none, white space and a tag",
    )
}

#[test]
fn expressions_end_by_braces(_rt: HostRuntime) -> Result<(), Fail> {
    holds(
        expression_end(" -}} b") == Some("b")
            && expression_end("}} b") == Some(" b")
            && expression_end(" | a }}").is_none(),
        "a dash, none, and a filter",
    )
}

/// Returns `true` if a chain ends here, and this is left after it.
fn ends(chain: &str, rest: &str) -> bool {
    chain_step(chain) == Some(ChainStep::End(rest))
}

#[test]
fn chains_go_on_or_end(_rt: HostRuntime) -> Result<(), Fail> {
    let filter = ChainStep::Filter(FilterStart {
        place: "cut: 1 }}",
        name: "cut",
        rest: ": 1 }}",
    });
    holds(chain_step(" | cut: 1 }}") == Some(filter), "a filter")?;
    holds(
        ends(" }} b", " b")
            && ends("-}} b", "b")
            && chain_step(" | }}").is_none()
            && chain_step(" , 1 }}").is_none(),
        "an end, a dashed one, a bar alone and neither",
    )
}

/// Returns `true` if a token is the range `(1..a)`.
fn is_range(token: TokenText<'_>) -> bool {
    let parts = TokenParts::Range {
        start: "1..a) b",
        stop: "a) b",
    };
    token.text == "(1..a)" && token.rest == " b" && token.parts == parts
}

#[test]
fn tokens_stand_after_white_space(_rt: HostRuntime) -> Result<(), Fail> {
    let is_found = match next_token(" (1..a) b") {
        Some(range) => is_range(range),
        None => false,
    };
    holds(
        is_found && next_token(" ").is_none(),
        "a range, and no token",
    )
}

/// Returns `true` if a token is the name `b`.
fn is_name(token: TokenText<'_>) -> bool {
    let parts = TokenParts::Chain(TokenKind::Identifier("b"));
    token.place == "b" && token.text == "b" && token.parts == parts
}

/// Returns the second token of a text.
fn second_token(text: &str) -> Option<TokenText<'_>> {
    next_token(next_token(text)?.rest)
}

#[test]
fn tokens_stand_side_by_side(_rt: HostRuntime) -> Result<(), Fail> {
    let is_found = match second_token(" (1..a) b") {
        Some(name) => is_name(name),
        None => false,
    };
    holds(is_found, "a second token")
}
