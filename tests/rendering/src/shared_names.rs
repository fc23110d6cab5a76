//! Names that have two meanings: which of them is tried first.
use crate::languages::{HostileLanguage, hostile_table_holds, registry_of};
use liquid_core::parser::Language;
use liquid_plugins::PluginRegistry;
use std::alloc::{AllocError, Global};
use std::test::Fail;
use test_plugins::block_plugins::{Blocks, HostileBlocks};
use test_plugins::tag_plugins::{HostileTags, Tags};

/// Templates, and their results. A tag is tried before a block of its name, so the end of that block ends nothing, and
/// is the tag that has its name; an end is tried before a tag of its name; in a block a tag is tried before a block of
/// its name, and an end before a divider of its name; and an end is that of the innermost block.
const ROWS: &str = r#"{"template": "{% box g 1 %}{{ g }}", "written": "1"}
{"template": "{% endbox %}a", "written": "sssa"}
{"template": "{% b %}a{% endbox %}c", "written": "[a]c"}
{"template": "{% b %}{% box g 1 %}{% endbox %}{{ g }}", "written": "[]1"}
{"template": "{% early %}a{% mid %}b", "written": "ab"}
{"template": "{% swap %}a{% early %}b{% mid %}c{% mid %}d{% endswap %}", "written": "dabc"}"#;

/// Returns a language in which names mean two things: `box` is a tag and a block, `endbox` is the end of `b` and a tag,
/// and `mid` is the end of `early` and a divider.
fn shared_names(alloc: Global) -> Result<HostileLanguage, AllocError> {
    let tags = [
        ("box", HostileTags::Plain(Tags::Set)),
        ("endbox", HostileTags::Spin),
    ];
    let blocks = [
        ("box", HostileBlocks::Plain(Blocks::Box)),
        ("b", HostileBlocks::Odd),
        ("swap", HostileBlocks::Plain(Blocks::Swap)),
        ("early", HostileBlocks::Early),
    ];
    let tags = registry_of(alloc, &tags)?;
    Ok(Language {
        filters: PluginRegistry::new(alloc),
        tags,
        blocks: registry_of(alloc, &blocks)?,
    })
}

#[test]
fn the_first_of_two_meanings_is_taken(rt: HostRuntime) -> Result<(), Fail> {
    let alloc = rt.alloc();
    hostile_table_holds(alloc, (ROWS, 6), shared_names(alloc))
}
