//! What filters, tags and blocks say about themselves.
use liquid_core::parser::{
    BlockReflection, FilterParametersReflection, FilterReflection, ParameterReflection, ParseBlock,
    PluginRegistry, TagReflection,
};
use liquid_tags::Blocks as LibraryBlocks;
use rows::{Line, holds, is_text, rows_hold};
use std::alloc::Global;
use std::test::Fail;
use test_plugins::filters::AppendParameters;
use test_plugins::languages::hostile_language;
use test_plugins::{Blocks, Filters, HostileBlocks, HostileTags};

/// Adds a parameter to a list, with its name, its description and whether it may be left out. Returns `false` if memory
/// runs out.
fn lists(all: &mut String, parameter: &ParameterReflection) -> bool {
    let kind = if parameter.is_optional {
        " (optional): "
    } else {
        " (needed): "
    };
    (all.is_empty() || all.push_str("; ").is_ok())
        && all.push_str(parameter.name).is_ok()
        && all.push_str(kind).is_ok()
        && all.push_str(parameter.description).is_ok()
}

/// Returns `true` if a text lists these parameters, joined by `; `.
fn are_listed(alloc: Global, parameters: &[ParameterReflection], text: Option<&str>) -> bool {
    let mut all = String::new(alloc);
    for parameter in parameters {
        if !lists(&mut all, parameter) {
            return false;
        }
    }
    text == Some(all.as_str())
}

/// Returns `true` if a row has these texts at its first places.
fn are_texts(row: &Line, texts: &[&str]) -> bool {
    for (place, text) in texts.iter().enumerate() {
        if row.text(place) != Some(*text) {
            return false;
        }
    }
    true
}

/// Returns `true` if a filter has the name, the description and the parameters of a row.
pub(crate) fn filter_is_listed<P: FilterReflection>(alloc: Global, filter: &P, row: &Line) -> bool {
    are_texts(row, &[filter.name(), filter.description()])
        && are_listed(alloc, filter.positional_parameters(), row.text(2))
        && are_listed(alloc, filter.keyword_parameters(), row.text(3))
}

/// Returns `true` if a tag has the name and the description of a row, and neither an example nor a spec.
pub(crate) fn tag_is_listed<T: TagReflection>(tag: &T, row: &Line) -> bool {
    are_texts(row, &[tag.tag(), tag.description()])
        && tag.example().is_none()
        && tag.spec().is_none()
}

/// Returns `true` if a block has the tags and the description of a row, and neither an example nor a spec.
pub(crate) fn block_is_listed<B: BlockReflection>(block: &B, row: &Line) -> bool {
    are_texts(
        row,
        &[block.start_tag(), block.end_tag(), block.description()],
    ) && block.example().is_none()
        && block.spec().is_none()
}

/// Returns `true` if names with spaces between them are a text.
fn are_joined(alloc: Global, names: &[&str], text: Option<&str>) -> bool {
    match text {
        Some(text) => is_text(names.join(alloc, " "), text),
        None => false,
    }
}

/// Returns `true` if a block has the dividers of a row, and escapes and nests as the row says.
pub(crate) fn body_is_listed<B: ParseBlock<Filters>>(alloc: Global, block: &B, row: &Line) -> bool {
    are_joined(alloc, block.dividers(), row.text(3))
        && Some(block.escapes()) == row.truth(4)
        && Some(block.nests()) == row.truth(5)
}

/// Name, description, parameters by place, parameters by keyword.
const FILTERS: &str =
    r#"["append", "The input's text with the text of a value after it.", "value (needed): What is put after the input.", ""]
["fail", "Refuses each input.", "", ""]"#;

/// Returns `true` if a filter is as the row of a line says.
fn filter_holds(alloc: Global, filter: Filters, line: &str) -> bool {
    match Line::of(alloc, line) {
        Some(row) => filter_is_listed(alloc, &filter, &row),
        None => false,
    }
}

#[test]
fn filters_tell_what_they_are(rt: HostRuntime) -> Result<(), Fail> {
    let alloc = rt.alloc();
    for (line, filter) in FILTERS.lines().zip([Filters::Append, Filters::Fail]) {
        holds(filter_holds(alloc, filter, line), line)?;
    }
    holds(
        are_listed(
            alloc,
            AppendParameters::positional_parameters(),
            Some("value (needed): What is put after the input."),
        ),
        "the parameters by place",
    )?;
    let keyword = AppendParameters::keyword_parameters();
    holds(keyword.is_empty(), "no parameter has a keyword")
}

/// Name and description.
const TAGS: &str = r#"["set", "Sets a global to a value, and writes nothing."]
["inc", "Renders the partial of a name, without a frame."]
["brk", "Leaves the loop around it."]
["spin", "Writes `s` at each of its turns, and never ends."]
["mute", "Has no turns."]"#;

/// Returns `true` if the tag of a row's name is as the row says.
fn tag_is_found<T: TagReflection + Drop>(tags: &PluginRegistry<T>, row: &Line) -> bool {
    match row.text(0) {
        Some(name) => match tags.get(name) {
            Some(tag) => tag_is_listed(tag, row),
            None => false,
        },
        None => false,
    }
}

/// Returns `true` if that is so in the language of malicious plug-ins.
fn hostile_tag_is_found(alloc: Global, row: &Line) -> bool {
    match hostile_language(alloc) {
        Ok(language) => tag_is_found(&language.tags, row),
        Err(_) => false,
    }
}

#[test]
fn tags_tell_what_they_are(rt: HostRuntime) -> Result<(), Fail> {
    rows_hold(rt.alloc(), TAGS, hostile_tag_is_found)
}

/// Start tag, end tag, description, dividers, whether it escapes, and whether it nests.
const BLOCKS: &str = r#"["box", "endbox", "Writes its body in brackets.", "", false, false]
["sbox", "endsbox", "Renders its body where no name is seen.", "", false, false]
["swap", "endswap", "Renders what comes after `mid`, and then what comes before it.", "mid", false, false]
["raw", "endraw", "Writes its body as it stands.", "", true, false]
["with", "endwith", "Renders its body with one name.", "", false, false]
["glob", "endglob", "Renders its body with globals of its own.", "", false, false]"#;

/// The same of the tag library.
const LIBRARY: &str =
    r#"["if", "endif", "Renders the part after the first condition that holds.", "elsif else", false, false]
["for", "endfor", "Renders its body for each item of an array, an object or a range.", "else", false, false]
["raw", "endraw", "Writes its body as it stands.", "", true, false]"#;

/// Returns `true` if a block is as the row of a line says, with its body.
fn block_holds<B: ParseBlock<Filters>>(alloc: Global, block: &B, line: &str) -> bool {
    match Line::of(alloc, line) {
        Some(row) => block_is_listed(block, &row) && body_is_listed(alloc, block, &row),
        None => false,
    }
}

/// Returns `true` if a block of the test plug-ins is as a line says, and the same block among malicious ones.
fn plain_block_holds(alloc: Global, block: Blocks, line: &str) -> bool {
    block_holds(alloc, &block, line) && block_holds(alloc, &HostileBlocks::Plain(block), line)
}

#[test]
fn blocks_tell_what_they_are(rt: HostRuntime) -> Result<(), Fail> {
    let blocks = [
        Blocks::Box,
        Blocks::Sbox,
        Blocks::Swap,
        Blocks::Raw,
        Blocks::With,
        Blocks::Glob,
    ];
    for (line, block) in BLOCKS.lines().zip(blocks) {
        holds(plain_block_holds(rt.alloc(), block, line), line)?;
    }
    Ok(())
}

#[test]
fn blocks_of_the_library_tell_what_they_are(rt: HostRuntime) -> Result<(), Fail> {
    let blocks = [LibraryBlocks::If, LibraryBlocks::For, LibraryBlocks::Raw];
    for (line, block) in LIBRARY.lines().zip(blocks) {
        holds(block_holds(rt.alloc(), &block, line), line)?;
    }
    Ok(())
}
