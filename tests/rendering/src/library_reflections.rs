//! What tags and blocks say about themselves.
use crate::reflections::{block_is_listed, tag_is_listed};
use liquid_tags::{Blocks, Tags};
use rows::{Line, holds};
use std::alloc::Global;
use std::test::Fail;

/// The name of each tag, and its description.
const TAGS: &str = r#"["assign", "Assigns what a chain comes to, and writes nothing."]
["increment", "Writes the number of a counter, and sets it one higher."]
["break", "Leaves the loop around it."]
["continue", "Goes on with the next item of the loop around it."]
["include", "Renders a partial, which sees the names around it."]
["render", "Renders a partial, which sees the names that it is given alone."]"#;

/// The start and the end of each block, and its description.
const BLOCKS: &str = r#"["if", "endif", "Renders the part after the first condition that holds."]
["for", "endfor", "Renders its body for each item of an array, an object or a range."]
["raw", "endraw", "Writes its body as it stands."]"#;

/// Returns `true` if a tag is as the row of a line says.
fn tag_holds(alloc: Global, tag: Tags, line: &str) -> bool {
    match Line::of(alloc, line) {
        Some(row) => tag_is_listed(&tag, &row),
        None => false,
    }
}

/// Returns `true` if a block is as the row of a line says.
fn block_holds(alloc: Global, block: Blocks, line: &str) -> bool {
    match Line::of(alloc, line) {
        Some(row) => block_is_listed(&block, &row),
        None => false,
    }
}

#[test]
fn tags_and_blocks_describe_themselves(rt: HostRuntime) -> Result<(), Fail> {
    let alloc = rt.alloc();
    let tags = [
        Tags::Assign,
        Tags::Increment,
        Tags::Break,
        Tags::Continue,
        Tags::Include,
        Tags::Render,
    ];
    for (line, tag) in TAGS.lines().zip(tags) {
        holds(tag_holds(alloc, tag, line), line)?;
    }
    for (line, block) in BLOCKS.lines().zip([Blocks::If, Blocks::For, Blocks::Raw]) {
        holds(block_holds(alloc, block, line), line)?;
    }
    Ok(())
}
