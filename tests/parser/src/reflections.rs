//! What tags and blocks say about themselves.
use crate::languages::{Check, language_rows_hold};
use crate::rows::has_text;
use liquid_core::parser::{BlockReflection, PluginRegistry, TagReflection};
use rows::Line;
use std::test::Fail;

/// Returns `true` if a row has null at a place.
fn has_null(row: &Line, place: usize) -> bool {
    match row.member(place) {
        Some(member) => member.is_null(),
        None => false,
    }
}

/// Returns `true` if a text that may be given is what a row has at a place: a text, or null.
fn is_listed(given: Option<&str>, row: &Line, place: usize) -> bool {
    match given {
        Some(text) => has_text(row, place, text),
        None => has_null(row, place),
    }
}

/// Returns `true` if a block has the tags, the description, the example and the spec of a row.
fn block_is_listed<B: BlockReflection>(block: &B, row: &Line) -> bool {
    has_text(row, 0, block.start_tag())
        && has_text(row, 1, block.end_tag())
        && has_text(row, 2, block.description())
        && is_listed(block.example(), row, 3)
        && is_listed(block.spec(), row, 4)
}

/// Returns `true` if the block that a row names is registered, and says what the row says.
pub(crate) fn has_block<B: BlockReflection + Drop>(row: &Line, blocks: &PluginRegistry<B>) -> bool {
    match blocks.get(row.text(0).unwrap_or("")) {
        Some(block) => block_is_listed(block, row),
        None => false,
    }
}

/// Start tag, end tag, description, example and spec.
static BLOCKS: &str = r#"["box", "endbox", "Writes its body in brackets.", null, null]
["swap", "endswap", "Renders what comes after `mid`, and then what comes before it.", null, null]
["raw", "endraw", "Writes its body as it stands.", null, null]"#;

#[test]
fn blocks_tell_what_they_are(rt: HostRuntime) -> Result<(), Fail> {
    language_rows_hold(rt.alloc(), Check::Block, BLOCKS)
}

/// Returns `true` if a tag has the name, the description, the example and the spec of a row.
fn tag_is_listed<T: TagReflection>(tag: &T, row: &Line) -> bool {
    has_text(row, 0, tag.tag())
        && has_text(row, 1, tag.description())
        && is_listed(tag.example(), row, 2)
        && is_listed(tag.spec(), row, 3)
}

/// Returns `true` if the tag that a row names is registered, and says what the row says.
pub(crate) fn has_tag<T: TagReflection + Drop>(row: &Line, tags: &PluginRegistry<T>) -> bool {
    match tags.get(row.text(0).unwrap_or("")) {
        Some(tag) => tag_is_listed(tag, row),
        None => false,
    }
}

/// Name, description, example and spec.
static TAGS: &str = r#"["set", "Sets a global to a value, and writes nothing.", null, null]
["brk", "Leaves the loop around it.", null, null]"#;

#[test]
fn tags_tell_what_they_are(rt: HostRuntime) -> Result<(), Fail> {
    language_rows_hold(rt.alloc(), Check::Tag, TAGS)
}
