//! Templates of nodes made by hand, with their results.
use crate::given::{count_at, no_names};
use crate::nodes::{OfStep, Page, adds, page, page_in, written};
use crate::pages::{Over, has_error, over};
use crate::renderings::{Rendering, is_rendered, writes};
use liquid_core::model::{Object, Value};
use liquid_core::parser::Node;
use liquid_core::runtime::{
    BuiltRuntime, Renderable, Runtime, RuntimeBuilder, RuntimeCore, SandboxedStackFrame, Template,
};
use liquid_core::{Filter, PartialStore};
use rows::{Line, Row, holds};
use std::alloc::Global;
use std::rc::Rc;
use std::test::Fail;
use test_plugins::Same;
use test_plugins::blocks::BlockNode;
use test_plugins::dripping::Dripping;
use test_plugins::hostile::{HostileBlockNode, HostileTagNode};
use test_plugins::partial::OnePartial;
use test_plugins::tags::{LeakyTagNode, TagNode};

/// Templates, each a list of steps.
const ROWS: &str = r#"{"template": "", "steps": [["begin"], ["end", "box"]], "written": "[]"}
{"template": "", "steps": [["begin"], ["text", "x"], ["brk"], ["text", "y"], ["end", "sbox"], ["text", "z"]], "written": "xz"}
{"template": "", "steps": [["begin"], ["text", "x"], ["brk"], ["text", "y"], ["end", "box"], ["text", "z"]], "written": "[x]"}
{"template": "", "steps": [["begin"], ["text", "a"], ["mid"], ["text", "b"], ["end", "swap"]], "written": "ba"}
{"template": "", "steps": [["begin"], ["end", "raw", "{{ a }}"]], "written": "{{ a }}"}
{"template": "", "steps": [["begin"], ["set", "x", 2], ["shown", "x"], ["end", "with", "x", 1], ["shown", "x"]], "written": "12"}
{"template": "", "steps": [["set", "g", 1], ["begin"], ["shown", "g"], ["set", "g", 5], ["shown", "g"], ["end", "glob"], ["shown", "g"]], "written": "151"}
{"template": "", "steps": [["begin"], ["set", "g", 5], ["shown", "g"], ["end", "glob"], ["shown", "g"]], "written": "5", "error": "liquid: Unknown variable\n  with:\n    requested variable=g\n", "lenient": {"written": "5"}}
{"template": "", "steps": [["set", "test", 42], ["begin"], ["shown", "test"], ["end", "with", "test", 3], ["shown", "test"]], "written": "342"}
{"template": "", "steps": [["begin"], ["text", "x"], ["end", "with", "x", "g"]], "written": "", "error": "liquid: Unknown variable\n  with:\n    requested variable=g\n", "lenient": {"written": "x"}}
{"template": "", "steps": [["leak", "g", 1], ["leak", "g", 2], ["shown", "g"]], "written": "12"}"#;

/// Templates with a partial `p`, and how deep partials may nest.
const PARTIAL_ROWS: &str =
    r#"{"template": "", "partial": [["text", "x"], ["inc", "p"]], "steps": [["inc", "p"]], "depth": 3, "written": "xxx", "error": "liquid: Partials nest too deep\n"}
{"template": "", "partial": [["text", "x"], ["inc", "p"]], "steps": [["inc", "p"]], "depth": 0, "written": "", "error": "liquid: Partials nest too deep\n"}
{"template": "", "partial": [["text", "x"], ["inc", "p"]], "steps": [["inc", "q"]], "depth": 3, "written": "", "error": "liquid: Unknown partial-template\n  with:\n    requested partial=q\n    available partials=p\n"}
{"template": "", "partial": [["text", "x"], ["inc", "p"]], "steps": [["inc", "q"]], "depth": 0, "written": "", "error": "liquid: Partials nest too deep\n"}
{"template": "", "partial": [["shown", "x"], ["set", "x", 2]], "steps": [["set", "x", 1], ["inc", "p"], ["shown", "x"]], "depth": 3, "written": "12"}"#;

/// Returns the template of a row's steps.
fn page_of<T: OfStep + Drop, B: OfStep + Drop>(
    alloc: Global,
    row: &Row,
) -> Option<Template<Same, T, B>> {
    page(alloc, row.member("steps")?)
}

/// Returns the partial of a row, an empty one if it has none.
fn partial_of<T: OfStep + Drop, B: OfStep + Drop>(
    alloc: Global,
    row: &Row,
) -> Option<Rc<Template<Same, T, B>>> {
    let partial = match row.member("partial") {
        Some(steps) => page(alloc, steps)?,
        None => Template::new(Vec::new(alloc)),
    };
    Rc::new(alloc, partial).ok()
}

/// Returns a runtime of a row with the partial `p`.
fn with_partial<X: Drop, T: Drop, B: Drop>(
    alloc: Global,
    row: &Row,
    partial: &Rc<Template<X, T, B>>,
) -> Option<Over<OnePartial<X, T, B>>> {
    match String::from_str(alloc, "p").ok().zip(partial.clone().ok()) {
        Some((name, template)) => over(alloc, row, Some(OnePartial { name, template })),
        None => None,
    }
}

/// Returns `true` if a row's template passes with a call that renders it, over a partial.
fn holds_by<X, T, B>(
    alloc: Global,
    row: &Row,
    page: &Template<X, T, B>,
    partial: &Rc<Template<X, T, B>>,
    call: Rendering,
) -> bool
where
    X: Filter,
    T: Renderable<()>,
    B: Renderable<()>,
{
    match with_partial(alloc, row, partial) {
        Some(runtime) => is_rendered(alloc, row, page, call, runtime),
        None => false,
    }
}

/// Returns `true` if a row passes with each call that renders a template.
fn row_holds<T, B>(alloc: Global, row: &Row) -> bool
where
    T: OfStep + Renderable<()>,
    B: OfStep + Renderable<()>,
{
    match page_of::<T, B>(alloc, row).zip(partial_of(alloc, row)) {
        Some((page, partial)) => {
            holds_by(alloc, row, &page, &partial, Rendering::To)
                && holds_by(alloc, row, &page, &partial, Rendering::Whole)
                && holds_by(alloc, row, &page, &partial, Rendering::Chained)
                && holds_by(alloc, row, &page, &partial, Rendering::Flat)
        }
        None => false,
    }
}

/// Returns `true` if the row of a line passes with strict names and with lenient ones.
fn line_holds<T, B>(alloc: Global, line: &str) -> bool
where
    T: OfStep + Renderable<()>,
    B: OfStep + Renderable<()>,
{
    match Row::of(alloc, line) {
        Some(row) => {
            row_holds::<T, B>(alloc, &row) && row_holds::<T, B>(alloc, &row.leniently())
        }
        None => false,
    }
}

/// Fails for the first row of a table that does not pass with strict names and with lenient ones.
fn all_hold(alloc: Global, rows: &str) -> Result<(), Fail> {
    for line in rows.lines() {
        if !line_holds::<LeakyTagNode, BlockNode>(alloc, line) {
            return Err(Fail::new(format_args!("this row doesn't hold: {line}")));
        }
    }
    Ok(())
}

#[test]
fn tags_and_blocks_are_rendered(rt: HostRuntime) -> Result<(), Fail> {
    all_hold(rt.alloc(), ROWS)
}

#[test]
fn partials_are_rendered_without_a_frame(rt: HostRuntime) -> Result<(), Fail> {
    all_hold(rt.alloc(), PARTIAL_ROWS)
}

/// Returns `true` if steps write a text over a runtime, with the text of their error after it.
fn steps_write<R: Runtime<Register = (), Store = ()>>(
    alloc: Global,
    steps: &str,
    runtime: &mut R,
    wanted: &str,
) -> bool {
    match page_in(alloc, steps) {
        Some(template) => writes(alloc, &template, runtime, wanted),
        None => false,
    }
}

/// Returns `true` if a step that renders the partial `p` has this error over a runtime.
fn finds_none(alloc: Global, mut runtime: BuiltRuntime<(), ()>, error: &str) -> bool {
    steps_write(alloc, r#"[["inc", "p"]]"#, &mut runtime, error)
}

#[test]
fn no_partial_is_found_where_there_are_none(rt: HostRuntime) -> Result<(), Fail> {
    let alloc = rt.alloc();
    let is_missing = finds_none(
        alloc,
        no_names(alloc),
        "liquid: Partial does not exist\n  with:\n    name=p\n",
    );
    let is_unknown = finds_none(
        alloc,
        RuntimeBuilder::new(alloc).set_partials(()).build(),
        "liquid: Unknown partial-template\n  with:\n    requested partial=p\n    available partials=\n",
    );
    holds(is_missing, "there is no store")?;
    holds(is_unknown, "the store is empty")
}

/// Assigns `S` to `s`, and returns `false` if memory runs out or there is no global frame.
fn assigns<R: Runtime>(alloc: Global, runtime: &mut R) -> bool {
    match String::from_str(alloc, "s")
        .ok()
        .zip(String::from_str(alloc, "S").ok())
    {
        Some((name, text)) => runtime.set_global(name, Value::scalar(text)).is_ok(),
        None => false,
    }
}

/// Returns `true` if `leak` writes a text in a sandbox. Outside of it `s` is assigned if `given` is true, and nothing
/// otherwise.
fn leaks<R>(alloc: Global, mut outside: R, given: bool, wanted: &str) -> bool
where
    R: Runtime<Register = (), Store = ()> + Drop,
{
    if given && !assigns(alloc, &mut outside) {
        return false;
    }
    let mut sandbox = SandboxedStackFrame::new(outside, Object::new(alloc));
    steps_write(alloc, r#"[["leak", "s", 1]]"#, &mut sandbox, wanted)
}

/// Does the same over a runtime without names.
fn leaks_over_no_names(alloc: Global, given: bool, wanted: &str) -> bool {
    leaks(alloc, no_names(alloc), given, wanted)
}

/// Returns `true` if an assignment is refused by a runtime without frames.
fn is_refused_by_core(alloc: Global, mut core: RuntimeCore<(), ()>) -> bool {
    steps_write(
        alloc,
        r#"[["set", "s", 1]]"#,
        &mut core,
        "liquid: No global frame\n",
    )
}

#[test]
fn leak_writes_what_a_sandbox_hides(rt: HostRuntime) -> Result<(), Fail> {
    let alloc = rt.alloc();
    holds(
        leaks_over_no_names(alloc, true, "S") && leaks_over_no_names(alloc, false, ""),
        "what a sandbox hides is written",
    )?;
    holds(
        is_refused_by_core(alloc, RuntimeCore::new()),
        "there is no global frame",
    )
}

/// A template, how many puts its sink takes, and what is written.
const SINK_ROWS: &str = r#"[[["begin"], ["text", "ab"], ["end", "box"]], 2, "[a"]
[[["set", "g", 1], ["text", "ab"], ["set", "g", 2]], 1, "a"]"#;

/// Returns `true` if a sink takes just that of a template, and its call has the error that the sink failed.
fn drips<X, T, B, R>(
    alloc: Global,
    template: Option<Template<X, T, B>>,
    mut sink: Dripping,
    runtime: &mut R,
    wanted: &str,
) -> bool
where
    X: Filter,
    R: Runtime,
    T: Renderable<R::Register>,
    B: Renderable<R::Register>,
    R::Store: PartialStore<X, T, B>,
{
    match template {
        Some(template) => {
            let answer = template.render_to(alloc, &mut sink, runtime);
            sink.as_bytes() == wanted.as_bytes()
                && has_error(alloc, &answer, "liquid: Failed to render\n")
        }
        None => false,
    }
}

/// Returns the sink of a row.
fn sink_of(alloc: Global, row: &Line) -> Option<Dripping> {
    match count_at(row, 1) {
        Some(puts) => Some(Dripping::new(alloc, puts)),
        None => None,
    }
}

/// Returns the template of a row.
fn template_of(alloc: Global, row: &Line) -> Option<Page> {
    match row.member(0) {
        Some(steps) => page(alloc, steps),
        None => None,
    }
}

/// Returns `true` if the sink of a row takes just what the row says, and its call has an error.
fn row_drips<R>(alloc: Global, row: &Line, runtime: &mut R) -> bool
where
    R: Runtime<Register = (), Store = ()>,
{
    match sink_of(alloc, row) {
        Some(sink) => match row.text(2) {
            Some(wanted) => drips(alloc, template_of(alloc, row), sink, runtime, wanted),
            None => false,
        },
        None => false,
    }
}

/// Returns `true` if each row passes, and leaves a runtime as their templates left it.
fn rows_drip<R>(alloc: Global, mut runtime: R) -> bool
where
    R: Runtime<Register = (), Store = ()> + Drop,
{
    for line in SINK_ROWS.lines() {
        let is_so = match Line::of(alloc, line) {
            Some(row) => row_drips(alloc, &row, &mut runtime),
            None => false,
        };
        if !is_so {
            return false;
        }
    }
    steps_write(alloc, r#"[["shown", "g"]]"#, &mut runtime, "1")
}

#[test]
fn a_sink_that_fails_leaves_what_was_set_before(rt: HostRuntime) -> Result<(), Fail> {
    holds(
        rows_drip(rt.alloc(), no_names(rt.alloc())),
        "a sink takes a beginning, and the name is as it was set before",
    )
}

/// Returns the template of a node, and `.` after it.
fn before_a_point<T: Drop, B: Drop>(
    alloc: Global,
    node: Option<Node<Same, T, B>>,
) -> Option<Template<Same, T, B>> {
    let mut nodes = Vec::new(alloc);
    if adds(&mut nodes, node) && adds(&mut nodes, written(alloc, ".")) {
        Some(Template::new(nodes))
    } else {
        None
    }
}

/// Returns a block whose one part is a text.
fn around<T: Drop, B: Drop>(alloc: Global, block: B, piece: &str) -> Option<Node<Same, T, B>> {
    let mut part = Vec::new(alloc);
    let mut parts = Vec::new(alloc);
    if adds(&mut part, written(alloc, piece)) && adds(&mut parts, Some(part)) {
        Some(Node::Block(0, block, parts))
    } else {
        None
    }
}

/// Returns `true` if a node writes a text, with `.` after it.
fn ends<T, B>(alloc: Global, node: Option<Node<Same, T, B>>, wanted: &str) -> bool
where
    T: Renderable<()>,
    B: Renderable<()>,
{
    match before_a_point(alloc, node) {
        Some(template) => writes(alloc, &template, &mut no_names(alloc), wanted),
        None => false,
    }
}

/// Returns `true` if a malicious tag, or one of the plain language, writes a text, with `.` after it.
fn tag_ends(alloc: Global, tag: HostileTagNode, wanted: &str) -> bool {
    ends::<HostileTagNode, HostileBlockNode>(alloc, Some(Node::Tag(0, tag)), wanted)
}

/// Returns `true` if such a block around a text writes a text, with `.` after it.
fn block_ends(alloc: Global, block: HostileBlockNode, piece: &str, wanted: &str) -> bool {
    ends::<HostileTagNode, HostileBlockNode>(alloc, around(alloc, block, piece), wanted)
}

#[test]
fn bad_will_is_rendered_to_its_end(rt: HostRuntime) -> Result<(), Fail> {
    let alloc = rt.alloc();
    holds(
        tag_ends(alloc, HostileTagNode::Spin, "sss.")
            && tag_ends(alloc, HostileTagNode::Mute, ".")
            && tag_ends(alloc, HostileTagNode::Plain(TagNode::Brk), ""),
        "tags end",
    )?;
    holds(
        block_ends(alloc, HostileBlockNode::Far, "a", ".")
            && block_ends(alloc, HostileBlockNode::Plain(BlockNode::Box), "x", "[x]."),
        "blocks end",
    )
}
