//! Single tags: their names, and the copies of the cursor over their tokens.
use crate::given::count_at;
use liquid_core::parser::{Tag, TagTokenIter};
use rows::{Line, is_text, rows_hold};
use std::alloc::Global;
use std::test::Fail;

/// Returns `true` if the tokens of a cursor, joined by ` / `, are a text.
fn are_joined(alloc: Global, mut tokens: TagTokenIter<'_>, shown: &str, count: usize) -> bool {
    let mut texts: Vec<&str> = Vec::new(alloc);
    for _ in 0..count {
        if let Some(token) = tokens.next() {
            if texts.push(token.as_str()).is_err() {
                return false;
            }
        }
    }
    is_text(texts.join(alloc, " / "), shown)
}

/// Returns `true` if each cursor of a tag returns the tokens of a text from the first one on, whatever another one has
/// returned.
fn has_tokens(alloc: Global, tag: Tag<'_>, shown: &str, count: usize) -> bool {
    let mut moved = tag.tokens();
    let _ = moved.next();
    are_joined(alloc, tag.tokens(), shown, count)
        && are_joined(alloc, tag.tokens(), shown, count)
        && are_joined(alloc, tag.into_tokens(), shown, count)
}

/// Returns the number of tokens after those that were taken from a copy of a tag's cursor.
fn left_after(tag: &Tag<'_>, taken: i64, count: usize) -> usize {
    let mut tokens = tag.tokens();
    for _ in 0..taken {
        let _ = tokens.next();
    }
    let mut left = 0usize;
    for _ in 0..count {
        if tokens.next().is_some() {
            left = left.saturating_add(1);
        }
    }
    left
}

/// Returns `true` if a tag has the name, the text and the tokens of a row.
fn is_listed(alloc: Global, row: &Line, tag: Tag<'_>, text: &str) -> bool {
    match row.text(2).zip(row.number(3)) {
        Some((shown, taken)) => {
            Some(tag.name()) == row.text(1)
                && tag.as_str() == text
                && Some(left_after(&tag, taken, text.len()) as u64) == count_at(row, 4)
                && has_tokens(alloc, tag, shown, text.len())
        }
        None => false,
    }
}

/// Returns `true` if the tag of a row is as the row says.
fn holds(alloc: Global, row: &Line) -> bool {
    match row.text(0) {
        Some(text) => match Tag::new(alloc, text) {
            Ok(tag) => is_listed(alloc, row, tag, text),
            Err(_) => false,
        },
        None => false,
    }
}

/// A tag, its name, its tokens, the number of tokens that are taken, and how many are then left.
const TAGS: &str = r#"["{% t %}", "t", "", 1, 0]
["{%-t-%}", "t", "", 0, 0]
["{% t a b c %}", "t", "a / b / c", 2, 1]
["{% t (1..3) a | append: 1 == b %}", "t", "(1..3) / a | append: 1 / == / b", 1, 3]
["{% for x in a.b[0] %}", "for", "x / in / a.b[0]", 3, 0]
["{% render \"p\", x: 1, y: z.size %}", "render", "\"p\" / , / x / : / 1 / , / y / : / z.size", 4, 5]
["{%\nassign\n  x\t=\n'é'\n%}", "assign", "x / = / 'é'", 0, 3]
["{%- if-not -1 <> +2 -%}", "if-not", "-1 / <> / +2", 1, 2]"#;

#[test]
fn a_copy_of_a_cursor_begins_at_the_first_token(rt: HostRuntime) -> Result<(), Fail> {
    rows_hold(rt.alloc(), TAGS, holds)
}
