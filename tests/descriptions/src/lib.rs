//! Whether filters, tags and blocks describe themselves as rows do.
use liquid_core::parser::{BlockReflection, FilterReflection, ParameterReflection, TagReflection};
use rows::Line;
use std::alloc::{AllocError, Global};

/// Adds a parameter to a list, with its name, whether it may be left out, and its description.
fn list(all: &mut String, parameter: &ParameterReflection) -> Result<(), AllocError> {
    if !all.is_empty() {
        all.push_str("; ")?;
    }
    all.push_str(parameter.name)?;
    all.push_str(if parameter.is_optional {
        " (optional): "
    } else {
        " (needed): "
    })?;
    all.push_str(parameter.description)
}

/// Returns `true` if a text lists these parameters, with `; ` between them.
fn are_listed(alloc: Global, parameters: &[ParameterReflection], text: Option<&str>) -> bool {
    let mut all = String::new(alloc);
    for parameter in parameters {
        if list(&mut all, parameter).is_err() {
            return false;
        }
    }
    text == Some(all.as_str())
}

/// Returns `true` if a row has the name of a filter, its description, its parameters by position and those by keyword.
pub fn filter_holds<P: FilterReflection>(alloc: Global, filter: &P, line: &str) -> bool {
    Line::of(alloc, line).is_some_and(|row| {
        row.text(0) == Some(filter.name())
            && row.text(1) == Some(filter.description())
            && are_listed(alloc, filter.positional_parameters(), row.text(2))
            && are_listed(alloc, filter.keyword_parameters(), row.text(3))
    })
}

/// Returns `true` if a row has the name of a tag and its description.
pub fn tag_holds<T: TagReflection>(alloc: Global, tag: &T, line: &str) -> bool {
    Line::of(alloc, line).is_some_and(|row| {
        row.text(0) == Some(tag.tag()) && row.text(1) == Some(tag.description())
    })
}

/// Returns `true` if a row has the start and the end of a block and its description.
pub fn block_holds<B: BlockReflection>(alloc: Global, block: &B, line: &str) -> bool {
    Line::of(alloc, line).is_some_and(|row| {
        row.text(0) == Some(block.start_tag())
            && row.text(1) == Some(block.end_tag())
            && row.text(2) == Some(block.description())
    })
}
