//! Symbols side by side: which of them is the longest.
use super::leaves;
use crate::texts::push_times;
use rows::{Line, rows_hold};
use serde_json::Value as Json;
use std::alloc::Global;
use std::test::Fail;

// A symbol, and what it leaves of each symbol after it: the longest symbol is taken.
const SHORT_FIRST: &str =
    r#"["<", [["<=", "<="], [">=", "="], ["==", "="], ["!=", "!="], ["<>", "<>"], ["<", "<"], [">", ""], ["=", ""], [",", ","], [":", ":"]]]
[">", [["<=", "<="], [">=", ">="], ["==", "="], ["!=", "!="], ["<>", "<>"], ["<", "<"], [">", ">"], ["=", ""], [",", ","], [":", ":"]]]
["=", [["<=", "<="], [">=", ">="], ["==", "="], ["!=", "!="], ["<>", "<>"], ["<", "<"], [">", ">"], ["=", ""], [",", ","], [":", ":"]]]"#;

// A symbol that begins no other, and the symbols after it, which it leaves whole.
const LONG_FIRST: &str = r#"["<=", ["<=", ">=", "==", "!=", "<>", "<", ">", "=", ",", ":"]]
[">=", ["<=", ">=", "==", "!=", "<>", "<", ">", "=", ",", ":"]]
["==", ["<=", ">=", "==", "!=", "<>", "<", ">", "=", ",", ":"]]
["!=", ["<=", ">=", "==", "!=", "<>", "<", ">", "=", ",", ":"]]
["<>", ["<=", ">=", "==", "!=", "<>", "<", ">", "=", ",", ":"]]
[",", ["<=", ">=", "==", "!=", "<>", "<", ">", "=", ",", ":"]]
[":", ["<=", ">=", "==", "!=", "<>", "<", ">", "=", ",", ":"]]"#;

/// Returns `true` if the first of two symbols side by side leaves this of the second, where the longest is taken.
fn is_after_symbol(alloc: Global, first: &str, second: &str, rest: &str) -> bool {
    let mut text = String::new(alloc);
    push_times(&mut text, first, 1)
        & push_times(&mut text, second, 1)
        & leaves("token", text.as_str(), Some(rest))
}

/// Returns the text at a place of a list, or `None` if there is no text.
fn text_at(list: &Json, place: usize) -> Option<&str> {
    match list.get(place) {
        Some(member) => member.as_str(),
        None => None,
    }
}

/// Returns `true` if a symbol leaves of the second one of a pair what the pair lists for it.
fn leaves_rest(alloc: Global, first: &str, pair: &Json) -> bool {
    match text_at(pair, 0).zip(text_at(pair, 1)) {
        Some((second, rest)) => is_after_symbol(alloc, first, second, rest),
        None => false,
    }
}

/// Returns `true` if the row's symbol leaves of each second symbol what the row lists for it.
fn is_short(alloc: Global, row: &Line) -> bool {
    let Some((first, pairs)) = row.text(0).zip(row.list(1)) else {
        return false;
    };
    for pair in pairs {
        if !leaves_rest(alloc, first, pair) {
            return false;
        }
    }
    true
}

/// Returns `true` if a symbol leaves a second one whole.
fn leaves_whole(alloc: Global, first: &str, second: &Json) -> bool {
    match second.as_str() {
        Some(second) => is_after_symbol(alloc, first, second, second),
        None => false,
    }
}

/// Returns `true` if the row's symbol leaves each of the row's symbols whole.
fn is_whole(alloc: Global, row: &Line) -> bool {
    let Some((first, symbols)) = row.text(0).zip(row.list(1)) else {
        return false;
    };
    for symbol in symbols {
        if !leaves_whole(alloc, first, symbol) {
            return false;
        }
    }
    true
}

#[test]
fn symbols_side_by_side(rt: HostRuntime) -> Result<(), Fail> {
    rows_hold(rt.alloc(), SHORT_FIRST, is_short)?;
    rows_hold(rt.alloc(), LONG_FIRST, is_whole)
}
