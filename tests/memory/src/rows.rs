//! Templates that are parsed and rendered, and partials that are requested from stores.
//!
//! All but the first steps are generic in the language and in the compiler of partials, so that a check reads them once
//! and not for each language and each store.
mod capturing;
mod compiling;
mod framing;
mod leaking;
mod pages;
mod parsing;
mod rendering;
mod requests;
mod row;
mod stores;

use crate::growths::Seen;
use crate::problem::Problem;
use liquid_core::Discreet;
use liquid_core::parser::{Language, ParseBlock, ParseFilter, ParseTag};
use liquid_core::partials::{
    EagerCompiler, InMemorySource, LazyCompiler, OnDemandCompiler, PartialCompiler,
};
use requests::Keeping;
use row::Row;
use std::alloc::Global;
use std::rc::Rc;
use stores::OfSource;
use test_plugins::languages::{language, leaky_language};

/// Makes the call of a row over a compiler of its partials, after that many boxes.
fn called<C, F, T, B>(
    alloc: Global,
    row: &Row,
    language: &Rc<Language<F, T, B>>,
    word: &str,
    boxes: usize,
) -> Result<Seen, Problem>
where
    F: ParseFilter,
    T: ParseTag<F>,
    B: ParseBlock<F>,
    T::Node: Discreet<()>,
    B::Node: Discreet<()>,
    C: PartialCompiler<F, T, B> + OfSource + Drop,
    C::Store: Keeping + Drop,
{
    match word {
        "parse" => parsing::parsed::<C, F, T, B>(alloc, row, language, boxes),
        "compile_eager" | "compile_lazy" | "compile_on_demand" => {
            compiling::compiled::<C, F, T, B>(alloc, row, language, boxes)
        }
        "get_eager" | "get_lazy" | "get_on_demand" => {
            requests::requested::<C, F, T, B>(alloc, row, language, boxes)
        }
        _ => rendering::rendered::<C, F, T, B>(alloc, row, language, word, boxes),
    }
}

/// Makes the call of a row over a compiler that compiles all partials first, or each when it is requested.
fn called_otherwise<F, T, B>(
    alloc: Global,
    row: &Row,
    language: &Rc<Language<F, T, B>>,
    word: &str,
    boxes: usize,
) -> Result<Seen, Problem>
where
    F: ParseFilter,
    T: ParseTag<F>,
    B: ParseBlock<F>,
    T::Node: Discreet<()>,
    B::Node: Discreet<()>,
{
    match word {
        "compile_eager" | "get_eager" => {
            called::<EagerCompiler<InMemorySource>, F, T, B>(alloc, row, language, word, boxes)
        }
        _ => called::<OnDemandCompiler<InMemorySource>, F, T, B>(alloc, row, language, word, boxes),
    }
}

/// Makes the call of a row over the compiler that the call names, or over the lazy one.
fn called_over<F, T, B>(
    alloc: Global,
    row: &Row,
    language: &Rc<Language<F, T, B>>,
    word: &str,
    boxes: usize,
) -> Result<Seen, Problem>
where
    F: ParseFilter,
    T: ParseTag<F>,
    B: ParseBlock<F>,
    T::Node: Discreet<()>,
    B::Node: Discreet<()>,
{
    match word {
        "compile_eager" | "get_eager" | "compile_on_demand" | "get_on_demand" => {
            called_otherwise(alloc, row, language, word, boxes)
        }
        _ => called::<LazyCompiler<InMemorySource>, F, T, B>(alloc, row, language, word, boxes),
    }
}

/// Makes the call of a row in a language, after that many boxes.
fn called_in<F, T, B>(
    alloc: Global,
    row: &Row,
    language: Language<F, T, B>,
    word: &str,
    boxes: usize,
) -> Result<Seen, Problem>
where
    F: ParseFilter,
    T: ParseTag<F>,
    B: ParseBlock<F>,
    T::Node: Discreet<()>,
    B::Node: Discreet<()>,
{
    let language = Rc::new(alloc, language)?;
    let seen = called_over(alloc, row, &language, word, boxes);
    drop(language);
    seen
}

/// Makes the call of a row in the language that the call needs, after that many boxes.
fn call(alloc: Global, row: &Row, word: &str, boxes: usize) -> Result<Seen, Problem> {
    match word {
        "render_leaky" => leaking::leaked(alloc, row, leaky_language(alloc)?, boxes),
        "render_captured" => capturing::captured(alloc, row, boxes),
        _ => called_in(alloc, row, language(alloc)?, word, boxes),
    }
}

/// Makes a call of the row of this name after that many boxes, and then once more.
pub fn tried(alloc: Global, name: &str, word: &str, boxes: usize) -> Result<Seen, Problem> {
    let row = Row::named(alloc, name)?;
    let seen = call(alloc, &row, word, boxes);
    drop(row);
    seen
}
