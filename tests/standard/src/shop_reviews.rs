//! What a review sees.
use crate::sources::is_whole;
use example_shop::pages::{Shop, write_review};
use liquid_core::{Error, TextSink};
use rows::holds;
use std::alloc::Global;
use std::test::Fail;

/// Writes a review of a shop that is opened for it.
fn write(alloc: Global, review: &str, sink: &mut TextSink) -> Result<(), Error> {
    let mut shop = Shop::open(alloc)?;
    write_review(alloc, &mut shop, review, sink)
}

#[test]
fn a_review_sees_nothing_of_the_shop(rt: HostRuntime) -> Result<(), Fail> {
    let mut sink = TextSink::new(rt.alloc());
    let answer = write(rt.alloc(), "{{ item }} {{ shop.margin }}", &mut sink);
    let refused =
        "Rain gauge \nRefused: liquid: Unknown variable\n  with:\n    requested variable=shop\n";
    holds(
        is_whole(rt.alloc(), sink, answer, refused),
        "the review has the item's name, and an error at the shop",
    )
}
