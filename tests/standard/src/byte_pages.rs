//! Pages from bytes: their results, and which fault comes first.
use liquid_core::Discreet;
use liquid_core::parser::{Language, NoPlugin, ParseBlock, ParseFilter, ParseTag, PluginRegistry};
use liquid_pages::{
    Leniency, PageFault, PageFrame, PageOptions, PageText, PartialBytes, PreparedPage, Rendered,
    prepare_page, render_page, render_prepared,
};
use std::alloc::Global;
use std::rc::Rc;
use std::test::Fail;

/// Returns the language without plug-ins.
fn language(alloc: Global) -> Language<NoPlugin, NoPlugin, NoPlugin> {
    Language {
        filters: PluginRegistry::new(alloc),
        tags: PluginRegistry::new(alloc),
        blocks: PluginRegistry::new(alloc),
    }
}

/// Returns a word for how the page ended.
fn end_of(rendered: &Rendered) -> &'static str {
    match &rendered.end {
        Ok(()) => "whole",
        Err(PageFault::NoText(PageText::Template)) => "the template is not UTF-8",
        Err(PageFault::NoText(PageText::Globals)) => "the globals are not UTF-8",
        Err(PageFault::NoText(PageText::PartialName(1))) => "the name of partial 1 is not UTF-8",
        Err(PageFault::NoText(PageText::PartialText(0))) => "the text of partial 0 is not UTF-8",
        Err(PageFault::NoText(_)) => "another text",
        Err(PageFault::BadJson(_)) => "bad JSON",
        Err(PageFault::NoGlobals(_)) => "no globals",
        Err(PageFault::Unparsed(_)) => "unparsed",
        Err(PageFault::Refused(_)) => "refused",
    }
}

/// A row: a template, its globals, the text of partial 0, the name of partial 1, whether names may be without a value,
/// how the page ends and what is written.
type Row<'a> = (
    &'a [u8],
    &'a [u8],
    &'a [u8],
    &'a [u8],
    bool,
    &'a str,
    &'a [u8],
);

static ROWS: [Row<'static>; 13] = [
    (
        b"a{{ x }}c",
        b"{\"x\": 7}",
        b"",
        b"b",
        false,
        "whole",
        b"a7c",
    ),
    (
        b"{{ x }}",
        b"{\"x\": 1, \"x\": 2}",
        b"",
        b"a",
        false,
        "whole",
        b"2",
    ),
    (b"ab{{ x }}", b"{}", b"", b"b", false, "refused", b"ab"),
    (b"ab{{ x }}", b"{}", b"", b"b", true, "whole", b"ab"),
    (b"ab{{ x | }}", b"{}", b"", b"b", false, "unparsed", b""),
    (
        b"ab{{ x | }}",
        b"{}",
        b"\xff",
        b"\x80",
        false,
        "the text of partial 0 is not UTF-8",
        b"",
    ),
    (
        b"ab{{ x | }}",
        b"{}",
        b"",
        b"\x80",
        false,
        "the name of partial 1 is not UTF-8",
        b"",
    ),
    (
        b"ab{{ x | }}",
        b"[]",
        b"\xff",
        b"b",
        false,
        "no globals",
        b"",
    ),
    (b"ab", b"{\"x\": 1.5}", b"", b"b", false, "no globals", b""),
    (b"ab{{ x | }}", b"{", b"\xff", b"b", false, "bad JSON", b""),
    (
        b"ab",
        b"\xff",
        b"\xff",
        b"b",
        false,
        "the globals are not UTF-8",
        b"",
    ),
    (
        b"\xffab",
        b"\xff",
        b"\xff",
        b"b",
        false,
        "the template is not UTF-8",
        b"",
    ),
    (
        b"\xffab",
        b"{}",
        b"",
        b"b",
        false,
        "the template is not UTF-8",
        b"",
    ),
];

/// Returns how a row's page is rendered.
fn options_of(is_lenient: bool) -> PageOptions {
    PageOptions {
        decimals: false,
        frame: if is_lenient {
            PageFrame::Sandboxed
        } else {
            PageFrame::Open
        },
        leniency: Leniency::of_paths(is_lenient),
        max_turns: None,
        max_bytes: None,
    }
}

/// Returns `true` if a page ends as its row says, with the output of the row.
fn ends_as(page: &Rendered, row: &Row<'_>) -> bool {
    let (_, _, _, _, _, end, output) = *row;
    end_of(page) == end && page.output.as_bytes() == output
}

/// Returns `true` if a row's page ends as the row says when it is read and rendered at once.
fn is_shown_at_once<F, T, B>(
    alloc: Global,
    language: &Rc<Language<F, T, B>>,
    row: &Row<'_>,
    partials: &[PartialBytes<'_>],
) -> bool
where
    F: ParseFilter,
    T: ParseTag<F>,
    B: ParseBlock<F>,
    T::Node: Discreet<()>,
    B::Node: Discreet<()>,
{
    let (text, globals, _, _, is_lenient, _, _) = *row;
    let options = options_of(is_lenient);
    let rendered = render_page::<(), F, T, B>(alloc, language, options, text, globals, partials);
    ends_as(&rendered, row)
}

/// Returns `true` if the next rendering of a row's page ends as the row says.
fn is_shown_next<F, T, B>(alloc: Global, page: &mut PreparedPage<F, T, B>, row: &Row<'_>) -> bool
where
    F: ParseFilter,
    T: ParseTag<F>,
    B: ParseBlock<F>,
    T::Node: Discreet<()>,
    B::Node: Discreet<()>,
{
    let (_, globals, _, _, is_lenient, _, _) = *row;
    let rendered = render_prepared::<(), F, T, B>(alloc, page, options_of(is_lenient), globals);
    ends_as(&rendered, row)
}

/// Returns `true` if a row's page ends as the row says, at once and each time that it is rendered once prepared.
fn is_shown<F, T, B>(
    alloc: Global,
    language: &Rc<Language<F, T, B>>,
    row: &Row<'_>,
    partials: &[PartialBytes<'_>],
) -> bool
where
    F: ParseFilter,
    T: ParseTag<F>,
    B: ParseBlock<F>,
    T::Node: Discreet<()>,
    B::Node: Discreet<()>,
{
    if !is_shown_at_once(alloc, language, row, partials) {
        return false;
    }
    let (text, _, _, _, _, _, _) = *row;
    let mut page = prepare_page(alloc, language, text, partials);
    is_shown_next(alloc, &mut page, row) && is_shown_next(alloc, &mut page, row)
}

/// Fails for the first row whose page does not end as the row says.
fn all_are_shown<F, T, B>(alloc: Global, language: Language<F, T, B>) -> Result<(), Fail>
where
    F: ParseFilter,
    T: ParseTag<F>,
    B: ParseBlock<F>,
    T::Node: Discreet<()>,
    B::Node: Discreet<()>,
{
    let language = Rc::new(alloc, language)?;
    for row in &ROWS {
        let (_, _, text, name, _, end, _) = *row;
        let first = PartialBytes { name: b"a", text };
        let second = PartialBytes { name, text: b"" };
        if !is_shown(alloc, &language, row, &[first, second]) {
            return Err(Fail::new(format_args!("a page does not end so: {end}")));
        }
    }
    Ok(())
}

#[test]
fn pages_show_their_text_or_the_first_fault(rt: HostRuntime) -> Result<(), Fail> {
    all_are_shown(rt.alloc(), language(rt.alloc()))
}
