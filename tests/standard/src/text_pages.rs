//! Pages from texts, and from templates that were read before, with options.
use crate::page_rows::globals_of;
use crate::sources::{add, is_whole};
use liquid_core::parser::{Language, PluginRegistry};
use liquid_core::partials::InMemorySource;
use liquid_core::{Error, NoPlugin, Object, TextSink};
use liquid_pages::{
    Leniency, PageFrame, PageLimit, PageOptions, read_template, render_template, render_text,
};
use liquid_std::marks::Marks;
use liquid_std::{StdBlocks, StdTags, language};
use rows::{Line, rows_hold};
use std::alloc::Global;
use std::rc::Rc;
use std::test::Fail;

/// A text, how many bytes it may write, what it writes over `{"x": 7}` and the partial `p`, and then its error, and
/// whether the limit stopped it.
const ROWS: &str = r#"["a{{ x }}{% include 'p' %}c", 9, "a7P7c", false]
["a{{ x }}{% include 'p' %}c", 3, "a7Pliquid: Rendering was stopped\nfrom: include p\n", true]
["{% cycle 1, 2 %}{% cycle 1, 2 %}{{ y }}", 9, "12liquid: Unknown variable\n  with:\n    requested variable=y\n", false]
["{% if x %}", 9, "liquid: Unclosed block. {% endif %} tag expected. (line 1, column 11)\n", false]"#;

type Standard = Language<NoPlugin, StdTags, StdBlocks>;

/// Returns the options of a page in an open frame that may write so many bytes.
fn options(max_bytes: u64) -> PageOptions {
    PageOptions {
        frame: PageFrame::Open,
        decimals: false,
        leniency: Leniency::Strict,
        max_turns: None,
        max_bytes: Some(max_bytes),
    }
}

/// Returns the language, what a page sees, and its partials.
fn given(alloc: Global) -> Result<(Rc<Standard>, Object, InMemorySource), Error> {
    let mut partials = InMemorySource::new(alloc);
    add(alloc, &mut partials, "p", "P{{ x }}")?;
    let language = Rc::new(alloc, language(alloc, PluginRegistry::new(alloc))?)?;
    Ok((language, globals_of(alloc, "{\"x\": 7}")?, partials))
}

/// What a call returns, what it writes, and the limit that stopped it.
#[derive(Drop)]
struct Called {
    answer: Result<(), Error>,
    sink: TextSink,
    stopped_by: Option<PageLimit>,
}

impl Called {
    /// Returns `true` if this is what was written, and then the error, and whether the limit on bytes stopped the call.
    fn is_so(self, alloc: Global, wanted: &str, is_stopped: bool) -> bool {
        let limit = if is_stopped {
            Some(PageLimit::Bytes)
        } else {
            None
        };
        self.stopped_by == limit && is_whole(alloc, self.sink, self.answer, wanted)
    }
}

/// Renders a text.
fn of_text(alloc: Global, text: &str, max_bytes: u64) -> Result<Called, Error> {
    let (language, globals, partials) = given(alloc)?;
    let (mut sink, mut stopped_by) = (TextSink::new(alloc), None);
    let answer = render_text::<Marks, _, _, _, _, _>(
        alloc,
        options(max_bytes),
        text,
        &language,
        globals,
        Some(partials),
        &mut sink,
        &mut stopped_by,
    );
    Ok(Called {
        answer,
        sink,
        stopped_by,
    })
}

/// Reads a text, and renders its template.
fn of_template(alloc: Global, text: &str, max_bytes: u64) -> Result<Called, Error> {
    let (language, globals, partials) = given(alloc)?;
    let (mut sink, mut stopped_by) = (TextSink::new(alloc), None);
    let answer = match read_template(alloc, text, &language) {
        Ok(template) => render_template::<Marks, _, _, _, _, _>(
            alloc,
            options(max_bytes),
            &template,
            &language,
            globals,
            Some(partials),
            &mut sink,
            &mut stopped_by,
        ),
        Err(error) => Err(error),
    };
    Ok(Called {
        answer,
        sink,
        stopped_by,
    })
}

/// Returns `true` if both calls do what a row says.
fn row_holds(alloc: Global, row: &Line) -> bool {
    let (Some(text), Some(bytes), Some(wanted)) = (row.text(0), row.number(1), row.text(2)) else {
        return false;
    };
    let is_stopped = row.truth(3) == Some(true);
    match (
        of_text(alloc, text, bytes as u64),
        of_template(alloc, text, bytes as u64),
    ) {
        (Ok(first), Ok(second)) => {
            first.is_so(alloc, wanted, is_stopped) && second.is_so(alloc, wanted, is_stopped)
        }
        _ => false,
    }
}

#[test]
fn pages_of_texts_and_of_templates(rt: HostRuntime) -> Result<(), Fail> {
    rows_hold(rt.alloc(), ROWS, row_holds)
}
