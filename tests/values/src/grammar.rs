//! Texts with what the written rules match at their beginning: what is left, and the first fault.
mod elements;
mod parts;
mod symbols;
mod told;

use crate::grammar::told::{kind_told, told};
use crate::texts::push_times;
use liquid_grammar::{
    Element, Fault, FaultKind, TokenKind, chain_kind, integer_of, match_argument, match_chain,
    match_expression, match_filter, match_identifier, match_index, match_literal, match_tag,
    match_token, match_value, match_variable, match_white, next_element, token_kind,
};
use rows::{Line, holds, rows_hold};
use std::alloc::Global;
use std::test::Fail;

/// What a rule finds at the beginning of a text: its first fault, and what is left of the text.
type Match<'a> = Option<(Option<Fault<'a>>, &'a str)>;

/// Returns the match of the rule of this name, or `None` if no rule has the name.
fn matched<'a>(rule: &str, text: &'a str) -> Option<Match<'a>> {
    match rule {
        "value" => Some(match_value(text)),
        "variable" => Some(match_variable(text)),
        "index" => Some(match_index(text)),
        "argument" => Some(match_argument(text)),
        "filter" => Some(match_filter(text)),
        "chain" => Some(match_chain(text)),
        "token" => Some(match_token(text)),
        "expression" => Some(match_expression(text)),
        "tag" => Some(match_tag(text)),
        _ => None,
    }
}

/// Returns `true` if a match without a fault leaves this of the text, or none begins it where nothing is wanted.
fn leaves(rule: &str, text: &str, rest: Option<&str>) -> bool {
    match matched(rule, text) {
        Some(Some((fault, after))) => fault.is_none() && rest == Some(after),
        Some(None) => rest.is_none(),
        None => false,
    }
}

// Rules, texts, and what is left of each after the rule's match, if it begins with one.
const VALUES: &str = r#"["value", "a.b[ 'c' ][d[0]].e f", " f"]
["value", "a .b", " .b"]
["value", "a. b", ". b"]
["value", "a[b", "[b"]
["value", "a[b c]", "[b c]"]
["value", "a['b'.c]", "['b'.c]"]
["value", "nil.a", ".a"]
["value", "[a]"]
["value", "-9223372036854775808", ""]
["value", "9223372036854775807", ""]
["variable", "nil"]
["variable", "a.nil", ""]
["index", "[a[b]]c", "c"]
["index", ".a.b", ".b"]
["value", "a.", "."]
["value", "a[]", "[]"]
["value", "a[b]]", "]"]
["value", "é"]"#;

const FILTERS: &str = r#"["argument", "a : b c", " c"]
["argument", "a : |", " : |"]
["filter", "f : 1 , b: 2 , | g", " , | g"]
["filter", "f : | g", " : | g"]
["filter", "f, b", ", b"]
["chain", "a | f: 1 | g | 2", " | 2"]
["chain", "'a' ", " "]
["chain", "| f"]
["chain", "a |", " |"]
["filter", "f: 'a", ": 'a"]
["argument", ": 1"]"#;

const TOKENS: &str = r#"["token", "(1 .. a.b ) c", " c"]
["token", "(1. .2)"]
["token", "<=>", ">"]
["token", "<>=", "="]
["token", ">=<", "<"]
["token", "===", "="]
["token", "!=!", "!"]
["token", "=!=", "!="]
["token", "<a", "a"]
["token", ":,", ","]
["token", "!a"]
["token", "a | f == b", " == b"]
["token", "(1..2"]
["token", "(..2)"]
["token", "1..2)", "..2)"]
["token", "'é' 漢", " 漢"]
["token", "é"]"#;

const ELEMENTS: &str = r#"["tag", "{% if a<=b %}c", "c"]
["tag", " \n{%-nil-%} \tc", "c"]
["tag", "{%a'b'1%}", ""]
["tag", "{% 'a' %}"]
["tag", "{% a }}"]
["tag", "{% a ! %}"]
["expression", "{{a|f:b,c}}d", "d"]
["expression", "{{ 'a' -}} d", "d"]
["expression", "{{ a b }}"]
["expression", "{{ }}"]
["expression", "{{ a }"]
["expression", "{ a }}"]
["expression", "{{ a |}}"]
["expression", "{{ a-}"]
["tag", "{% a %"]
["tag", "{% %}"]
["tag", "{% a (1..) %}"]"#;

// A rule, a text, the kind of its first fault, and the text from there on.
const FAULTS: &str =
    r#"["value", "9223372036854775808", "integer out of range", "9223372036854775808"]
["chain", "a[1.5] | f: 2.5", "decimal not supported", "1.5] | f: 2.5"]
["tag", "{% a 1 (2..3.0) %}", "decimal not supported", "3.0) %}"]
["expression", "{{ a | f: b, c: 99999999999999999999 }}", "integer out of range", "99999999999999999999 }}"]"#;

/// Returns `true` if the row's rule leaves the row's rest of its text without a fault, or begins no match if the row
/// has none.
fn is_left(_alloc: Global, row: &Line) -> bool {
    match row.text(0).zip(row.text(1)) {
        Some((rule, text)) => leaves(rule, text, row.text(2)),
        None => false,
    }
}

#[test]
fn rules_leave_what_is_after_them(rt: HostRuntime) -> Result<(), Fail> {
    for rows in [VALUES, FILTERS, TOKENS, ELEMENTS] {
        rows_hold(rt.alloc(), rows, is_left)?;
    }
    Ok(())
}

/// Returns the name of a fault's kind, as the table has it.
fn fault_name(kind: FaultKind) -> &'static str {
    match kind {
        FaultKind::IntegerOutOfRange => "integer out of range",
        FaultKind::DecimalNotSupported => "decimal not supported",
        _ => "another fault",
    }
}

fn is_fault(_alloc: Global, row: &Line) -> bool {
    match matched(row.text(0).unwrap_or(""), row.text(1).unwrap_or("")) {
        Some(Some((Some(fault), _))) => {
            row.text(2) == Some(fault_name(fault.kind)) && row.text(3) == Some(fault.place)
        }
        _ => false,
    }
}

#[test]
fn the_first_fault_is_found(rt: HostRuntime) -> Result<(), Fail> {
    rows_hold(rt.alloc(), FAULTS, is_fault)
}

// A text with the identifier that it begins with, and what is left.
const IDENTIFIERS: &str = r#"["a-b c", "a-b", " c"]
["a--b", "a", "--b"]
["a-", "a", "-"]
["_1é", "_1", "é"]
["1a"]
[""]"#;

// A text with the literal that it begins with, and what is left.
const LITERALS: &str = r#"["nil|", "nil", "", "|"]
["null", "nil", "", ""]
["empty ", "empty", "", " "]
["blank", "blank", "", ""]
["true.a", "true", "", ".a"]
["false", "false", "", ""]
["truely"]
["'a\"é'b", "text", "a\"é", "b"]
["\"it's\"", "text", "it's", ""]
["'a"]
["-12]", "integer", "-12", "]"]
["+1.50,", "decimal", "+1.50", ","]
["1..5", "integer", "1", "..5"]
["1.a", "integer", "1", ".a"]
["1.5a"]
["5_"]
["- 1"]"#;

// A text with the kind of the token that it begins with.
const TOKEN_KINDS: &str = r#"["a ", "identifier", "a"]
["a.b", "variable", ""]
["a['b']", "variable", ""]
["'a' b", "text", "a"]
["nil", "nil", ""]
["a | f", "filtered", ""]
["(1..a)", "range", ""]
["<=", "symbol", ""]
["!"]"#;

// A text with the kind of the chain that it begins with.
const CHAIN_KINDS: &str = r#"["a }}", "identifier", "a"]
["a.b | c }}", "filtered", ""]
["1 }}", "integer", "1"]
["(1..a)"]"#;

/// Returns the two texts of a row after its first, if it has them.
fn pair(row: &Line) -> Option<(&str, &str)> {
    row.text(1).zip(row.text(2))
}

fn is_identifier(_alloc: Global, row: &Line) -> bool {
    match row.text(0) {
        Some(text) => match_identifier(text) == pair(row),
        None => false,
    }
}

/// Returns `true` if a text begins with the literal of the row and leaves the row's rest, or with none if the row has
/// none.
fn begins_with_literal(text: &str, row: &Line) -> bool {
    match match_literal(text) {
        Some((literal, rest)) => pair(row) == Some(told(literal)) && row.text(3) == Some(rest),
        None => row.member(1).is_none(),
    }
}

fn is_literal(_alloc: Global, row: &Line) -> bool {
    match row.text(0) {
        Some(text) => begins_with_literal(text, row),
        None => false,
    }
}

#[test]
fn identifiers_and_literals_are_found(rt: HostRuntime) -> Result<(), Fail> {
    rows_hold(rt.alloc(), IDENTIFIERS, is_identifier)?;
    rows_hold(rt.alloc(), LITERALS, is_literal)
}

fn is_token_kind(_alloc: Global, row: &Line) -> bool {
    match row.text(0) {
        Some(text) => token_kind(text).map(kind_told) == pair(row),
        None => false,
    }
}

fn is_chain_kind(_alloc: Global, row: &Line) -> bool {
    match row.text(0) {
        Some(text) => chain_kind(text).map(kind_told) == pair(row),
        None => false,
    }
}

#[test]
fn tokens_and_chains_have_kinds(rt: HostRuntime) -> Result<(), Fail> {
    rows_hold(rt.alloc(), TOKEN_KINDS, is_token_kind)?;
    rows_hold(rt.alloc(), CHAIN_KINDS, is_chain_kind)
}

#[test]
fn kinds_tell_their_names(_rt: HostRuntime) -> Result<(), Fail> {
    holds(
        TokenKind::Identifier("a").identifier() == Some("a")
            && TokenKind::Variable.identifier().is_none(),
        "a name, and a path",
    )
}

#[test]
fn white_space_is_matched(_rt: HostRuntime) -> Result<(), Fail> {
    holds(
        match_white(" \t\r\n é") == (" \t\r\n ", "é") && match_white("a ") == ("", "a "),
        "blanks, and none",
    )
}

#[test]
fn whole_numbers_of_64_bits_are_numbers(_rt: HostRuntime) -> Result<(), Fail> {
    holds(
        integer_of("-7") == Some(-7)
            && integer_of("+7") == Some(7)
            && integer_of("9223372036854775808").is_none()
            && integer_of("7a").is_none(),
        "signs, a number past 64 bits, and no number",
    )
}

/// Adds a text, a name after a hundred brackets, and as many brackets that end as this says, and returns `true` if memory
/// doesn't run out.
fn push_brackets(whole: &mut String, start: &str, ends: usize) -> bool {
    push_times(whole, start, 1)
        && push_times(whole, "a[", 100)
        && push_times(whole, "a", 1)
        && push_times(whole, "]", ends)
}

/// Returns `true` if a value leaves nothing of a hundred brackets.
fn brackets_are_matched(alloc: Global) -> bool {
    let mut whole = String::new(alloc);
    push_brackets(&mut whole, "", 100) & leaves("value", whole.as_str(), Some(""))
}

#[test]
fn a_hundred_brackets(rt: HostRuntime) -> Result<(), Fail> {
    holds(brackets_are_matched(rt.alloc()), "a hundred brackets")
}

/// Returns `true` if the second of a text's brackets is too deep.
fn is_too_deep(text: &str) -> bool {
    match match_value(text) {
        Some((Some(fault), "")) => {
            fault.kind == FaultKind::NestedTooDeep && fault.place.len() == 103
        }
        _ => false,
    }
}

/// Returns `true` if one bracket more is too deep.
fn one_more_is_too_deep(alloc: Global) -> bool {
    let mut deeper = String::new(alloc);
    push_brackets(&mut deeper, "b[", 101) & is_too_deep(deeper.as_str())
}

#[test]
fn one_bracket_more_is_too_deep(rt: HostRuntime) -> Result<(), Fail> {
    holds(one_more_is_too_deep(rt.alloc()), "one bracket more")
}

/// Returns `true` if a name leaves the many brackets after it.
fn brackets_are_left(alloc: Global, brackets: usize) -> bool {
    let mut text = String::new(alloc);
    push_times(&mut text, "a", 1)
        & push_times(&mut text, "[", brackets)
        & leaves("value", text.as_str(), text.as_str().strip_prefix("a"))
}

#[test]
fn a_million_brackets_are_left(rt: HostRuntime) -> Result<(), Fail> {
    holds(
        brackets_are_left(rt.alloc(), 1_000_000),
        "a million brackets",
    )
}

/// Returns `true` if a million blanks are one element.
fn are_raw(blanks: &str) -> bool {
    match next_element(blanks) {
        Some((Element::Raw(raw), rest)) => raw.len() == 1_000_000 && rest.is_empty(),
        _ => false,
    }
}

/// Returns `true` if blanks are one element.
fn blanks_are_raw(alloc: Global) -> bool {
    let mut blanks = String::new(alloc);
    push_times(&mut blanks, " ", 1_000_000) & are_raw(blanks.as_str())
}

#[test]
fn a_million_blanks_are_raw_text(rt: HostRuntime) -> Result<(), Fail> {
    holds(blanks_are_raw(rt.alloc()), "a million blanks")
}

/// Returns `true` if each of a hundred thousand braces is an invalid element, and the last one raw text.
fn are_invalid(braces: &str) -> bool {
    let mut rest = braces;
    for _ in 0..99_999 {
        match next_element(rest) {
            Some((Element::Invalid("{"), after)) => rest = after,
            _ => return false,
        }
    }
    next_element(rest) == Some((Element::Raw("{"), ""))
}

/// Returns `true` if braces are invalid elements.
fn braces_are_invalid(alloc: Global) -> bool {
    let mut braces = String::new(alloc);
    push_times(&mut braces, "{", 100_000) & are_invalid(braces.as_str())
}

#[test]
fn a_hundred_thousand_braces_are_invalid(rt: HostRuntime) -> Result<(), Fail> {
    holds(braces_are_invalid(rt.alloc()), "a hundred thousand braces")
}
