//! The calls that the crate `test_calls` proves, with ample memory.

use rows::holds;
use std::test::Fail;
use test_calls::{
    errors_answer, pages_are_rendered, registries_answer, scopes_answer,
    standard_pages_are_rendered, stores_answer, views_answer,
};

#[test]
fn values_errors_and_registries_answer(rt: HostRuntime) -> Result<(), Fail> {
    let alloc = rt.alloc();
    holds(views_answer(alloc), "values are built")?;
    holds(errors_answer(alloc), "errors are changed")?;
    holds(registries_answer(alloc), "a registry answers")
}

#[test]
fn scopes_and_stores_answer(rt: HostRuntime) -> Result<(), Fail> {
    let alloc = rt.alloc();
    holds(scopes_answer(alloc), "scopes of both forms answer")?;
    holds(stores_answer(alloc), "stores of each kind answer")
}

#[test]
fn pages_are_written(rt: HostRuntime) -> Result<(), Fail> {
    let alloc = rt.alloc();
    holds(pages_are_rendered(alloc), "each call renders the page")?;
    holds(
        standard_pages_are_rendered(alloc),
        "the standard language renders a host's plug-ins",
    )
}
