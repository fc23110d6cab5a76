//! Nodes made by hand, from a list of steps.
use crate::given::text_at;
use liquid_core::runtime::Template;
use liquid_plugins::{Expression, FilterChain, Node, Variable};
use serde_json::Value as Json;
use std::alloc::Global;
use std::mem;
use test_plugins::Same;
use test_plugins::blocks::BlockNode;
use test_plugins::tags::{LeakyTagNode, TagNode};

pub(crate) type Page = Template<Same, LeakyTagNode, BlockNode>;

/// Returns a node of a text, or `None` if memory runs out.
pub(crate) fn written<T, B>(alloc: Global, piece: &str) -> Option<Node<Same, T, B>> {
    match String::from_str(alloc, piece) {
        Ok(piece) => Some(Node::Text(piece)),
        Err(_) => None,
    }
}

/// Returns the text at a place of a step.
fn text(alloc: Global, step: &Json, place: usize) -> Option<String> {
    match text_at(step, place) {
        Some(text) => String::from_str(alloc, text).ok(),
        None => None,
    }
}

/// Returns the variable of the name at a place of a step.
fn variable(alloc: Global, step: &Json, place: usize) -> Option<Expression> {
    match text(alloc, step, place) {
        Some(name) => Some(Expression::Variable(Variable::with_literal(alloc, name))),
        None => None,
    }
}

/// Returns the number at a place of a step.
fn literal(step: &Json, place: usize) -> Option<Expression> {
    match step.get(place) {
        Some(number) => Some(Expression::with_literal(number.as_i64()?)),
        None => None,
    }
}

/// Returns an expression as a node holds it.
fn held(alloc: Global, expression: Option<Expression>) -> Option<Box<Expression>> {
    match expression {
        Some(expression) => Box::new(alloc, expression).ok(),
        None => None,
    }
}

/// What a step makes: a tag, or the block that it ends.
pub(crate) trait OfStep: Sized {
    /// Returns what a step makes, or `None` for a step that makes something else, or if memory runs out.
    fn of_step(alloc: Global, step: &Json) -> Option<Self>;
}

/// Returns the name at the first place after a step's word, and the number after it.
fn name_and_number(alloc: Global, step: &Json) -> Option<(String, Box<Expression>)> {
    text(alloc, step, 1).zip(held(alloc, literal(step, 2)))
}

/// Returns the tag of a step that writes nothing of what a sandbox hides.
fn tag(alloc: Global, step: &Json) -> Option<TagNode> {
    match text_at(step, 0)? {
        "set" => {
            let (name, number) = name_and_number(alloc, step)?;
            Some(TagNode::Set(name, number))
        }
        "inc" => Some(TagNode::Inc(text(alloc, step, 1)?)),
        "brk" => Some(TagNode::Brk),
        _ => None,
    }
}

impl OfStep for LeakyTagNode {
    fn of_step(alloc: Global, step: &Json) -> Option<LeakyTagNode> {
        if text_at(step, 0) == Some("leak") {
            let (name, number) = name_and_number(alloc, step)?;
            Some(LeakyTagNode::Leak(name, number))
        } else {
            Some(LeakyTagNode::Plain(tag(alloc, step)?))
        }
    }
}

/// Returns what a `with` binds: the value of the name in its step, or the number in it.
fn bound(alloc: Global, step: &Json) -> Option<Box<Expression>> {
    if text_at(step, 3).is_some() {
        held(alloc, variable(alloc, step, 3))
    } else {
        held(alloc, literal(step, 3))
    }
}

impl OfStep for BlockNode {
    fn of_step(alloc: Global, step: &Json) -> Option<BlockNode> {
        match text_at(step, 1)? {
            "box" => Some(BlockNode::Box),
            "sbox" => Some(BlockNode::Sbox),
            "swap" => Some(BlockNode::Swap),
            "raw" => Some(BlockNode::Raw(text(alloc, step, 2)?)),
            "with" => {
                let (name, bound) = text(alloc, step, 2).zip(bound(alloc, step))?;
                Some(BlockNode::With(name, bound))
            }
            "glob" => Some(BlockNode::Glob),
            _ => None,
        }
    }
}

/// Returns a node without parts.
fn leaf<T: OfStep, B>(alloc: Global, step: &Json) -> Option<Node<Same, T, B>> {
    match text_at(step, 0)? {
        "text" => written(alloc, text_at(step, 1)?),
        "shown" => {
            let name = variable(alloc, step, 1)?;
            Some(Node::Chain(0, FilterChain::new(name, Vec::new(alloc))))
        }
        _ => Some(Node::Tag(0, T::of_step(alloc, step)?)),
    }
}

/// A block that is open: the nodes before it, and its parts so far.
#[derive(Drop)]
struct Open<N> {
    outer: Vec<N>,
    parts: Vec<Vec<N>>,
}

/// Begins a block after the nodes of a list, and returns `false` if memory runs out.
fn begins<N: Drop>(alloc: Global, list: &mut Vec<N>, open: &mut Vec<Open<N>>) -> bool {
    let outer = mem::replace(list, Vec::new(alloc));
    let parts = Vec::new(alloc);
    open.push(Open { outer, parts }).is_ok()
}

/// Ends a part of the block that was begun last, and returns `false` if there is none, or if memory runs out.
fn divides<N: Drop>(alloc: Global, list: &mut Vec<N>, open: &mut Vec<Open<N>>) -> bool {
    match open.last_mut() {
        Some(block) => block
            .parts
            .push(mem::replace(list, Vec::new(alloc)))
            .is_ok(),
        None => false,
    }
}

/// Ends the block that was begun last after its last part, and returns `false` if there is none, or if memory runs out.
fn ends<X: Drop, T: Drop, B: Drop>(
    list: &mut Vec<Node<X, T, B>>,
    open: &mut Vec<Open<Node<X, T, B>>>,
    block: B,
) -> bool {
    match open.pop() {
        Some(Open { outer, parts }) => {
            *list = outer;
            list.push(Node::Block(0, block, parts)).is_ok()
        }
        None => false,
    }
}

/// Adds a node to a list, and returns `false` if there is none, or if memory runs out.
pub(crate) fn adds<N: Drop>(list: &mut Vec<N>, node: Option<N>) -> bool {
    match node {
        Some(node) => list.push(node).is_ok(),
        None => false,
    }
}

/// Takes a step: adds its node, or begins, divides or ends a block. Returns `false` for another step, or if memory runs
/// out.
fn takes<T: OfStep + Drop, B: OfStep + Drop>(
    alloc: Global,
    step: &Json,
    list: &mut Vec<Node<Same, T, B>>,
    open: &mut Vec<Open<Node<Same, T, B>>>,
) -> bool {
    match text_at(step, 0) {
        Some("begin") => begins(alloc, list, open),
        Some("mid") => divides(alloc, list, open),
        Some("end") => match B::of_step(alloc, step) {
            Some(block) => divides(alloc, list, open) && ends(list, open, block),
            None => false,
        },
        _ => adds(list, leaf(alloc, step)),
    }
}

/// Takes steps one after another, and returns `false` if one of them is none, or if memory runs out.
fn take_all<T: OfStep + Drop, B: OfStep + Drop>(
    alloc: Global,
    steps: &Vec<Json>,
    list: &mut Vec<Node<Same, T, B>>,
    open: &mut Vec<Open<Node<Same, T, B>>>,
) -> bool {
    for step in steps {
        if !takes(alloc, step, list, open) {
            return false;
        }
    }
    true
}

/// Returns the nodes of a list of steps, or `None` if a step is none, or if memory runs out.
fn nodes<T: OfStep + Drop, B: OfStep + Drop>(
    alloc: Global,
    steps: &Json,
) -> Option<Vec<Node<Same, T, B>>> {
    let steps = steps.as_array()?;
    let mut list = Vec::new(alloc);
    let mut open = Vec::new(alloc);
    let are_taken = take_all(alloc, steps, &mut list, &mut open) && open.is_empty();
    if are_taken { Some(list) } else { None }
}

/// Returns the template of a list of steps, or `None` for other JSON or if memory runs out. A step is a word and its
/// arguments. A block's parts are between `begin` and `end`, divided by `mid`, and `end` names the block.
pub(crate) fn page<T: OfStep + Drop, B: OfStep + Drop>(
    alloc: Global,
    steps: &Json,
) -> Option<Template<Same, T, B>> {
    match nodes(alloc, steps) {
        Some(nodes) => Some(Template::new(nodes)),
        None => None,
    }
}

/// Returns the template of a text of JSON that is a list of steps, or `None` for another text or if memory runs out.
pub(crate) fn page_in(alloc: Global, text: &str) -> Option<Page> {
    match Json::from_str(alloc, text) {
        Ok(steps) => page(alloc, &steps),
        Err(_) => None,
    }
}
