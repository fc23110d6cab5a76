//! The texts of the faults of a page of bytes.
use liquid_pages::{PageFault, PageText};
use rows::{holds, is_text};
use std::alloc::Global;
use std::test::Fail;

/// Returns `true` if this is the fault of a text of a page that is not UTF-8.
fn tells(alloc: Global, text: PageText, wanted: &str) -> bool {
    is_text(PageFault::NoText(text).to_string(alloc), wanted)
}

#[test]
fn a_text_that_is_not_utf_8_is_named(rt: HostRuntime) -> Result<(), Fail> {
    let alloc = rt.alloc();
    holds(
        tells(
            alloc,
            PageText::Template,
            "liquid: the template is not UTF-8\n",
        ) && tells(
            alloc,
            PageText::Globals,
            "liquid: the text of the globals is not UTF-8\n",
        ) && tells(
            alloc,
            PageText::PartialName(0),
            "liquid: the name of partial 0 is not UTF-8\n",
        ) && tells(
            alloc,
            PageText::PartialText(7),
            "liquid: the text of partial 7 is not UTF-8\n",
        ),
        "the text that is named",
    )
}
