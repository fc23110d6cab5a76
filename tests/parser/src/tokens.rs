//! Tags alone and their tokens.
use crate::rows::pairs_hold;
use crate::shown::{first_line_of, has_first_line};
use liquid_core::Error;
use liquid_core::parser::{Tag, TagToken, TagTokenIter, TryMatchToken};
use rows::is_text;
use std::alloc::{AllocError, Global};
use std::test::Fail;

/// Returns the texts of the tokens of a tag, joined by ` / `, or the error of the tag.
fn texts(alloc: Global, text: &str) -> Result<String, AllocError> {
    match Tag::new(alloc, text) {
        Ok(tag) => joined(alloc, tag.into_tokens(), text.len()),
        Err(error) => first_line_of(alloc, &error),
    }
}

/// Returns the texts of at most that many tokens, joined by ` / `.
pub(crate) fn joined(
    alloc: Global,
    tokens: TagTokenIter<'_>,
    count: usize,
) -> Result<String, AllocError> {
    let mut tokens = tokens;
    let mut texts = Vec::new(alloc);
    for _ in 0..count {
        if let Some(token) = tokens.next() {
            texts.push(token.as_str())?;
        }
    }
    texts.join(alloc, " / ")
}

/// Returns `true` if a token was tried, and whether it matches is as wanted.
fn is_match<A: Drop>(attempt: Result<TryMatchToken<'_, A>, AllocError>, is_wanted: bool) -> bool {
    match attempt {
        Ok(TryMatchToken::Matches(_)) => is_wanted,
        Ok(TryMatchToken::Fails(_)) => !is_wanted,
        Err(_) => false,
    }
}

/// Returns `true` if a token is what the letters say: an identifier, a variable, a literal, an expression, a range or the
/// text `==`.
fn has_kinds(alloc: Global, token: TagToken<'_>, letters: &str) -> bool {
    is_match(Ok(token.expect_identifier()), letters.contains("i"))
        && is_match(token.expect_variable(alloc), letters.contains("v"))
        && is_match(token.expect_literal(alloc), letters.contains("l"))
        && is_match(token.expect_value(alloc), letters.contains("e"))
        && is_match(token.expect_range(alloc), letters.contains("r"))
        && is_match(Ok(token.expect_str("==")), letters.contains("s"))
}

/// Returns `true` if these are the tokens of a tag, or its error.
fn has_tokens(alloc: Global, tag: &str, answer: &str) -> bool {
    is_text(texts(alloc, tag), answer)
}

/// A tag, and its tokens, or its error.
const TOKENS: &str = r#"["{% t (1..3) a | append: 1 == b %}", "(1..3) / a | append: 1 / == / b"]
["{%-t-%} \n", ""]
["{% t a.b[0],'c' %}", "a.b[0] / , / 'c'"]
["", "liquid: Invalid liquid (line 1, column 1)"]
["{% t %} ", "liquid: Invalid liquid (line 1, column 1)"]
["a{% t %}", "liquid: Invalid liquid (line 1, column 1)"]
["{{ t }}", "liquid: Invalid liquid (line 1, column 1)"]
["{% t\n4.5 %}", "liquid: Decimal not supported (line 2, column 1)"]
["{% t a 9223372036854775808 %}", "liquid: Integer out of range (line 1, column 8)"]"#;

#[test]
fn tags_have_tokens(rt: HostRuntime) -> Result<(), Fail> {
    pairs_hold(rt.alloc(), TOKENS, has_tokens)
}

/// Returns the tokens of a tag.
pub(crate) fn tokens_of(alloc: Global, text: &str) -> Result<TagTokenIter<'_>, Error> {
    Ok(Tag::new(alloc, text)?.into_tokens())
}

/// Returns the first token of a tag.
pub(crate) fn first_token(alloc: Global, text: &str) -> Result<TagToken<'_>, Error> {
    tokens_of(alloc, text)?.expect_next(alloc, "Token expected")
}

/// Returns `true` if a token has the kinds of some letters, and is raised as an error.
fn is_kind(alloc: Global, token: TagToken<'_>, letters: &str) -> bool {
    let refusal = "liquid: Unexpected token (line 1, column 6)";
    has_kinds(alloc, token, letters) && has_first_line(alloc, &token.raise_error(alloc), refusal)
}

/// Returns `true` if an error is that of a token that is missing at a column.
fn is_missing(alloc: Global, error: &Error, column: usize) -> bool {
    match format!(in alloc; "liquid: Token expected (line 1, column {column})") {
        Ok(refusal) => has_first_line(alloc, error, refusal.as_str()),
        Err(_) => false,
    }
}

/// Returns `true` if no token is left, and the error for that is at a column.
fn are_no_more(alloc: Global, tokens: &mut TagTokenIter<'_>, column: usize) -> bool {
    match tokens.expect_next(alloc, "Token expected") {
        Ok(_) => false,
        Err(error) => is_missing(alloc, &error, column),
    }
}

/// Returns `true` if a tag has one token of the kinds of some letters, and the error for a second one is at the tag's
/// end.
fn has_one_token(alloc: Global, tag: &str, letters: &str) -> bool {
    match tokens_of(alloc, tag) {
        Ok(mut tokens) => match tokens.expect_next(alloc, "Token expected") {
            Ok(token) => {
                is_kind(alloc, token, letters)
                    && are_no_more(alloc, &mut tokens, tag.len().saturating_sub(2))
            }
            Err(_) => false,
        },
        Err(_) => false,
    }
}

/// A tag, and the letters of the kinds of its token.
const KINDS: &str = r#"["{% t a %}", "ive"]
["{% t a.b %}", "ve"]
["{% t a | b %}", ""]
["{% t 'a' %}", "le"]
["{% t 1 %}", "le"]
["{% t (a..2) %}", "r"]
["{% t == %}", "s"]"#;

#[test]
fn tokens_are_what_they_look_like(rt: HostRuntime) -> Result<(), Fail> {
    pairs_hold(rt.alloc(), KINDS, has_one_token)
}
