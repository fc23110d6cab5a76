//! The next token of a tag, as what a plug-in expects, and what is left after it.
use crate::languages::{Check, language_rows_hold};
use crate::rows::texts_at;
use crate::shown::{is_answer, is_done, is_name};
use crate::tokens::{joined, tokens_of};
use liquid_core::parser::{ParseFilter, PluginRegistry, TagTokenIter};
use rows::{Line, is_text};
use std::alloc::Global;
use std::test::Fail;

const MISSING: &str = "Token expected";

/// Takes the next token as what a row expects. Returns `true` if its text, or the first line of the error, is the
/// answer.
fn next_is<F: ParseFilter>(
    alloc: Global,
    expected: &str,
    answer: &str,
    tokens: &mut TagTokenIter<'_>,
    filters: &PluginRegistry<F>,
) -> bool {
    match expected {
        "identifier" => is_name(alloc, tokens.next_identifier(alloc, MISSING), answer),
        "value" => is_answer(alloc, tokens.next_value(alloc, MISSING), answer),
        "chain" => is_answer(
            alloc,
            tokens.next_filter_chain(alloc, MISSING, filters),
            answer,
        ),
        _ => {
            let taken = tokens.next_str(alloc, MISSING, expected);
            is_done(alloc, taken, expected, answer)
        }
    }
}

/// Returns `true` if the next token of a tag is the answer, or has it as the first line of its error, and these tokens
/// are left.
fn next_and_rest_are<F: ParseFilter>(
    alloc: Global,
    (expected, tag): (&str, &str),
    (answer, left): (&str, &str),
    filters: &PluginRegistry<F>,
) -> bool {
    match tokens_of(alloc, tag) {
        Ok(mut tokens) => {
            next_is(alloc, expected, answer, &mut tokens, filters)
                && is_text(joined(alloc, tokens, tag.len()), left)
        }
        Err(_) => false,
    }
}

/// Returns `true` if the next token of a row's tag is what the row says, or has the row's error, and the same tokens
/// are left.
pub(crate) fn is_taken<F: ParseFilter>(
    alloc: Global,
    row: &Line,
    filters: &PluginRegistry<F>,
) -> bool {
    match (texts_at(row, 0, 1), texts_at(row, 2, 3)) {
        (Some(given), Some(wanted)) => next_and_rest_are(alloc, given, wanted, filters),
        _ => false,
    }
}

/// What the first token of a tag should be, the tag, the token or its error, and the tokens that are left.
static ROWS: &str = r#"["identifier", "{% t a b %}", "a", "b"]
["identifier", "{% t a.b c %}", "liquid: Unexpected token (line 1, column 6)", "a.b / c"]
["identifier", "{% t 'a' %}", "liquid: Unexpected token (line 1, column 6)", "'a'"]
["identifier", "{% t %}", "liquid: Token expected (line 1, column 5)", ""]
["value", "{% t a['b'] c %}", "a[\"b\"]", "c"]
["value", "{% t 'a' == %}", "\"a\"", "=="]
["value", "{% t a | append: 1 %}", "liquid: Unexpected token (line 1, column 6)", "a | append: 1"]
["value", "{% t (1..2) %}", "liquid: Unexpected token (line 1, column 6)", "(1..2)"]
["value", "{%\nt\n%}", "liquid: Token expected (line 2, column 2)", ""]
["==", "{% t == b %}", "==", "b"]
["b", "{% t b %}", "b", ""]
["==", "{% t = b %}", "liquid: Unexpected token (line 1, column 6)", "= / b"]
["==", "{% t %}", "liquid: Token expected (line 1, column 5)", ""]
["chain", "{% t 'a' | append: 'b', 'c' b %}", "liquid: Unexpected token (line 1, column 6)", "'a' | append: 'b', 'c' / b"]
["chain", "{% t 'a' | append: 'b' == %}", "\"a\" | append", "=="]
["chain", "{% t a b %}", "a | ", "b"]
["chain", "{% t a | nope %}", "liquid: Unexpected token (line 1, column 6)", "a | nope"]
["chain", "{% t == %}", "liquid: Unexpected token (line 1, column 6)", "=="]
["chain", "{% t (1..2) %}", "liquid: Unexpected token (line 1, column 6)", "(1..2)"]
["chain", "{% t %}", "liquid: Token expected (line 1, column 5)", ""]"#;

#[test]
fn the_next_token_is_taken_as_what_is_expected(rt: HostRuntime) -> Result<(), Fail> {
    language_rows_hold(rt.alloc(), Check::NextToken, ROWS)
}
