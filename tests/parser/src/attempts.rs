//! Attempts to read a token, and errors of a token and of a cursor.
use crate::languages::{Check, language_rows_hold};
use crate::rows::{pairs_hold, texts_at};
use crate::shown::{displays, has_first_line, is_done, is_name};
use crate::tokens::{first_token, tokens_of};
use liquid_core::parser::{
    Filter, FilterChain, ParseFilter, PluginRegistry, TagToken, TryMatchToken,
};
use rows::{Line, rows_hold};
use std::alloc::Global;
use std::test::Fail;

/// Returns `true` if an attempt at a chain has one that shows this text, or if this is the text of a token that is not a
/// chain.
fn shows<X: Filter>(
    alloc: Global,
    attempt: &TryMatchToken<'_, FilterChain<X>>,
    text: &str,
) -> bool {
    match attempt {
        TryMatchToken::Matches(chain) => displays(alloc, chain, text),
        TryMatchToken::Fails(token) => text.strip_prefix("no chain: ") == Some(token.as_str()),
    }
}

/// Returns `true` if a token shows the chain or the text that is given.
fn is_tried_as<F: ParseFilter>(
    alloc: Global,
    token: TagToken<'_>,
    text: &str,
    filters: &PluginRegistry<F>,
) -> bool {
    match token.expect_filter_chain(alloc, filters) {
        Ok(attempt) => shows(alloc, &attempt, text),
        Err(_) => false,
    }
}

/// Returns `true` if the first token of a row's tag shows the chain or the text of the row.
pub(crate) fn is_tried<F: ParseFilter>(
    alloc: Global,
    row: &Line,
    filters: &PluginRegistry<F>,
) -> bool {
    let Some((tag, text)) = texts_at(row, 0, 1) else {
        return false;
    };
    match first_token(alloc, tag) {
        Ok(token) => is_tried_as(alloc, token, text, filters),
        Err(_) => false,
    }
}

/// A tag, and what its first token shows as a chain, or the token if it is not one.
static CHAINS: &str = r#"["{% t a %}", "a | "]
["{% t a.b[0] | append: 'c' | append: x %}", "a[\"b\"][0] | append | append"]
["{% t 1 | append %}", "no chain: 1 | append"]
["{% t 'a' | nope: 1 %}", "no chain: 'a' | nope: 1"]
["{% t (a..b) %}", "no chain: (a..b)"]
["{% t == %}", "no chain: =="]"#;

#[test]
fn chains_of_filters_are_tried(rt: HostRuntime) -> Result<(), Fail> {
    language_rows_hold(rt.alloc(), Check::Chain, CHAINS)
}

/// Returns `true` if a token is this name, or its error has this first line.
fn is_identifier(alloc: Global, token: TagToken<'_>, text: &str) -> bool {
    is_name(alloc, token.expect_identifier().into_result(alloc), text)
}

/// Returns `true` if a token is this name, or its error with a message of the plug-in's own has this first line.
fn is_identifier_or_message(alloc: Global, token: TagToken<'_>, text: &str) -> bool {
    let attempt = token.expect_identifier();
    is_name(
        alloc,
        attempt.into_result_custom_msg(alloc, "A name, please"),
        text,
    )
}

/// Returns `true` if this is the first line of an error about a token.
fn is_refused(alloc: Global, token: TagToken<'_>, line: &str) -> bool {
    has_first_line(
        alloc,
        &token.raise_custom_error(alloc, "No token at all"),
        line,
    )
}

/// Returns `true` if this is the first line of an error about the tokens after the first one.
fn is_refused_after(alloc: Global, tag: &str, line: &str) -> bool {
    match tokens_of(alloc, tag) {
        Ok(mut tokens) => {
            let _ = tokens.next();
            has_first_line(alloc, &tokens.raise_error(alloc, "Nothing more"), line)
        }
        Err(_) => false,
    }
}

/// Returns `true` if the attempts at a tag's first token as a name have these results, and an error about the token has
/// this first line.
fn has_attempts(alloc: Global, tag: &str, name: &str, message: &str, line: &str) -> bool {
    match first_token(alloc, tag) {
        Ok(token) => {
            is_identifier(alloc, token, name)
                && is_identifier_or_message(alloc, token, message)
                && is_refused(alloc, token, line)
        }
        Err(_) => false,
    }
}

/// Returns `true` if the attempts have the results of a row.
fn is_attempted(alloc: Global, row: &Line) -> bool {
    match (texts_at(row, 0, 1), texts_at(row, 2, 3), row.text(4)) {
        (Some((tag, name)), Some((message, line)), Some(line_after)) => {
            has_attempts(alloc, tag, name, message, line)
                && is_refused_after(alloc, tag, line_after)
        }
        _ => false,
    }
}

/// A tag; its first token as a name, and the same with a message; errors about the token, and after it.
const ATTEMPTS: &str =
    r#"["{% t a %}", "a", "a", "liquid: No token at all (line 1, column 6)", "liquid: Nothing more (line 1, column 7)"]
["{% t\n a.b c %}", "liquid: Unexpected token (line 2, column 2)", "liquid: A name, please (line 2, column 2)", "liquid: No token at all (line 2, column 2)", "liquid: Nothing more (line 2, column 5)"]"#;

#[test]
fn a_token_that_does_not_match_is_refused(rt: HostRuntime) -> Result<(), Fail> {
    rows_hold(rt.alloc(), ATTEMPTS, is_attempted)
}

/// Returns `true` if a tag has no token and this is `nothing`, or if it is the first line of the error.
fn is_nothing_or_refused(alloc: Global, tag: &str, text: &str) -> bool {
    match tokens_of(alloc, tag) {
        Ok(tokens) => is_done(alloc, tokens.expect_nothing(alloc), "nothing", text),
        Err(_) => false,
    }
}

/// A tag, and the result where it should have no token.
const NOTHING: &str = r#"["{% t %}", "nothing"]
["{%-t-%} ", "nothing"]
["{% t  a == %}", "liquid: Unexpected token (line 1, column 7)"]"#;

#[test]
fn a_token_is_refused_where_none_is_expected(rt: HostRuntime) -> Result<(), Fail> {
    pairs_hold(rt.alloc(), NOTHING, is_nothing_or_refused)
}
