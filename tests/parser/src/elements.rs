//! Bodies of blocks, with the elements that the cursor returns, and escaped bodies.
use crate::rows::pairs_hold;
use crate::shown::{first_line_of, has_first_line, is_name};
use liquid_core::Error;
use liquid_core::parser::{BlockElement, TagBlock};
use rows::{Line, holds, is_text, rows_hold};
use std::alloc::{AllocError, Global};
use std::test::Fail;

/// Returns the kind of an element, and its text.
fn kind_and_text<'a>(element: BlockElement<'a>) -> (&'a str, &'a str) {
    match element {
        BlockElement::Raw(raw) => ("raw", raw.as_str()),
        BlockElement::Tag(tag) => (tag.name(), tag.as_str()),
        BlockElement::Expression(exp) => ("expression", exp.as_str()),
        BlockElement::Invalid(token) => ("invalid", token.as_str()),
    }
}

/// Returns the kind of an element and its text, with a mark after it if the element has another text.
fn shown(alloc: Global, element: BlockElement<'_>) -> Result<String, AllocError> {
    let (kind, text) = kind_and_text(element);
    let mark = if text == element.as_str() { "" } else { "!" };
    format!(in alloc; "{kind} `{text}`{mark}")
}

/// Puts a text after others.
fn push(texts: &mut Vec<String>, text: Result<String, AllocError>) -> Result<(), AllocError> {
    texts.push(text?)?;
    Ok(())
}

/// Takes the next element, or its error. Adds its kind and its text, or the first line of the error, to others.
fn add_next(
    alloc: Global,
    texts: &mut Vec<String>,
    next: Result<Option<BlockElement<'_>>, Error>,
) -> Result<(), AllocError> {
    match next {
        Ok(Some(element)) => push(texts, shown(alloc, element)),
        Ok(None) => Ok(()),
        Err(error) => push(texts, first_line_of(alloc, &error)),
    }
}

/// Adds the elements of a body up to its end, and the errors, to others.
fn add_elements(alloc: Global, texts: &mut Vec<String>, body: &str) -> Result<(), AllocError> {
    let mut block = TagBlock::new(body, "start", "end");
    for _ in 0..body.len() {
        match block.next(alloc) {
            Ok(None) => {
                let state = if block.is_closed() { "closed" } else { "open" };
                block.assert_empty();
                return push(texts, String::from_str(alloc, state));
            }
            next => add_next(alloc, texts, next)?,
        }
    }
    Ok(())
}

/// Returns the elements of a body up to its end, and the errors, joined by ` / `.
fn handed_out(alloc: Global, body: &str) -> Result<String, AllocError> {
    let mut texts = Vec::new(alloc);
    add_elements(alloc, &mut texts, body)?;
    texts.join(alloc, " / ")
}

/// Returns `true` if these are the elements of a body.
fn hands_out(alloc: Global, body: &str, elements: &str) -> bool {
    is_text(handed_out(alloc, body), elements)
}

/// A body, and its elements.
const HANDED_OUT: &str = r#"["{% end %}a", "closed"]
["a {{ b }}{% t 1 %}{{% end %}c", "raw `a ` / expression `{{ b }}` / t `{% t 1 %}` / invalid `{` / closed"]
["a {%- end -%} \n", "raw `a` / closed"]
["{% start %}{% end %}", "start `{% start %}` / closed"]
["{% end 1 %}x{% end %}", "liquid: Unexpected token (line 1, column 8) / raw `x` / closed"]
["é{{ 4.5 }}\n{{- 9223372036854775808 }}{% t 1.5 %}{% end %}", "raw `é` / liquid: Decimal not supported (line 1, column 5) / liquid: Integer out of range (line 2, column 5) / liquid: Decimal not supported (line 2, column 32) / closed"]
["a  {{- ! }}{% end %}", "raw `a` / invalid `  {` / raw `{- ! }}` / closed"]
["{{", "invalid `{` / raw `{`"]"#;

#[test]
fn elements_are_handed_out_in_their_order(rt: HostRuntime) -> Result<(), Fail> {
    pairs_hold(rt.alloc(), HANDED_OUT, hands_out)
}

/// Returns `true` if a body has a next element.
fn has_next(alloc: Global, block: &mut TagBlock<'_, '_>) -> bool {
    match block.next(alloc) {
        Ok(next) => next.is_some(),
        Err(_) => false,
    }
}

/// Returns `true` if the next element of a body without its end is an error at its end, and the body stays open.
fn is_refused_at_its_end(alloc: Global, block: &mut TagBlock<'_, '_>) -> bool {
    let refusal = "liquid: Unclosed block. {% end %} tag expected. (line 2, column 3)";
    match block.next(alloc) {
        Ok(_) => false,
        Err(error) => has_first_line(alloc, &error, refusal) && !block.is_closed(),
    }
}

#[test]
fn a_body_without_its_end_is_refused_at_its_end(rt: HostRuntime) -> Result<(), Fail> {
    let mut block = TagBlock::new("é\nab", "start", "end");
    holds(
        has_next(rt.alloc(), &mut block)
            && is_refused_at_its_end(rt.alloc(), &mut block)
            && is_refused_at_its_end(rt.alloc(), &mut block),
        "a text is handed out, and then an error at the end, twice",
    )
}

/// Returns `true` if a text is the escaped body of a block, or the first line of its error.
fn escapes_to(alloc: Global, block: &mut TagBlock<'_, '_>, nests: bool, text: &str) -> bool {
    if block.is_closed() {
        text == "closed before"
    } else {
        is_name(alloc, block.escape_liquid(alloc, nests), text)
    }
}

/// Returns a cursor over the body of a block `raw`, after that many elements.
fn passed_by<'a>(alloc: Global, body: &'a str, passed: i64) -> TagBlock<'a, 'static> {
    let mut block = TagBlock::new(body, "raw", "endraw");
    for _ in 0..passed {
        let _ = block.next(alloc);
    }
    block
}

/// Returns `true` if a row has the result of a block, and says whether the block is closed then.
fn is_escaped_so(alloc: Global, block: &mut TagBlock<'_, '_>, row: &Line) -> bool {
    match (row.truth(2), row.text(3), row.truth(4)) {
        (Some(nests), Some(text), Some(is_closed)) => {
            escapes_to(alloc, block, nests, text) && block.is_closed() == is_closed
        }
        _ => false,
    }
}

/// Returns `true` if a row has the result of its body, and says whether the block is closed then.
fn is_escaped(alloc: Global, row: &Line) -> bool {
    match (row.text(0), row.number(1)) {
        (Some(body), Some(passed)) => {
            is_escaped_so(alloc, &mut passed_by(alloc, body, passed), row)
        }
        _ => false,
    }
}

/// A body, how many elements are passed before, whether starts nest, the escaped text or the error, and whether the
/// block is closed then.
const ESCAPED: &str = r#"["{% endraw %}a", 0, false, "", true]
["{{ a }}{{% endraw %}", 0, false, "{{ a }}{", true]
[" x {%- endraw -%} y", 0, false, " x", true]
["{{ 4.5 }}{% raw 1.5 %}{% endraw %}", 0, false, "{{ 4.5 }}{% raw 1.5 %}", true]
["{% endraw 1 %}{% endraw %}", 0, false, "{% endraw 1 %}", true]
["{% raw %}a{% endraw %}b{% endraw %}", 0, false, "{% raw %}a", true]
["{% raw %}a{% endraw %}b{% endraw %}", 0, true, "{% raw %}a{% endraw %}b", true]
["a{{ b }} c {% endraw %}", 1, false, "{{ b }} c ", true]
["a{{ b }} c {% endraw %}", 2, true, " c ", true]
["a{{ 4.5 }}c{% endraw %}", 2, false, "c", true]
["{% endraw %}", 1, false, "closed before", true]
["{% raw %}a\n{% endraw %}b", 0, true, "liquid: Unclosed block. {% endraw %} tag expected. (line 2, column 14)", false]
["", 0, false, "liquid: Unclosed block. {% endraw %} tag expected. (line 1, column 1)", false]"#;

#[test]
fn escaped_bodies_are_slices(rt: HostRuntime) -> Result<(), Fail> {
    rows_hold(rt.alloc(), ESCAPED, is_escaped)
}
