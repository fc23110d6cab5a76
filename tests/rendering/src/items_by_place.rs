//! The items of a loop, by their places.
use crate::given::runtime_of;
use liquid_core::Error;
use liquid_core::model::{Scalar, ValueRender};
use liquid_core::runtime::Expression;
use liquid_tags::for_block::items::Items;
use liquid_tags::for_block::series::{Series, items_of};
use rows::{holds, is_text};
use std::alloc::Global;
use std::test::Fail;

/// Returns `true` if the item at a place has this text, or if there is none and the text is `-`.
fn is_shown(alloc: Global, items: &Items, place: u64, wanted: &str) -> bool {
    match items.get(place) {
        Ok(Some(item)) => is_text(ValueRender::new(item.get()).to_string(alloc), wanted),
        Ok(None) => wanted == "-",
        Err(_) => false,
    }
}

/// Returns `true` for three items of which the first and the last have these texts.
fn are_by_place(alloc: Global, items: Result<Items, Error>, first: &str, last: &str) -> bool {
    match items {
        Ok(items) => {
            items.len() == 3
                && is_shown(alloc, &items, 0, first)
                && is_shown(alloc, &items, 2, last)
                && is_shown(alloc, &items, 3, "-")
                && is_shown(alloc, &items, u64::MAX, "-")
        }
        Err(_) => false,
    }
}

/// Returns `true` if the items of a series are such, where a list has the name `a`.
fn has_places(alloc: Global, series: &Series, first: &str, last: &str) -> bool {
    match runtime_of(alloc, r#"{"a": [5, "b", null]}"#) {
        Some(runtime) => are_by_place(alloc, items_of(alloc, series, &runtime), first, last),
        None => false,
    }
}

/// Returns `true` if the items of the list `a` are such.
fn list_has_places(alloc: Global, first: &str, last: &str) -> bool {
    match String::from_str(alloc, "a") {
        Ok(name) => {
            let list = Expression::of_parts(Scalar::new(name), Vec::new(alloc));
            has_places(alloc, &Series::Of(list), first, last)
        }
        Err(_) => false,
    }
}

#[test]
fn items_have_places(rt: HostRuntime) -> Result<(), Fail> {
    let alloc = rt.alloc();
    let from = Expression::with_literal(-1);
    let to = Expression::with_literal(1);
    holds(
        has_places(alloc, &Series::Between(from, to), "-1", "1") && list_has_places(alloc, "5", ""),
        "items have places",
    )
}
