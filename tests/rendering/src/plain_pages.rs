//! Templates of the test plug-ins are rendered as what they mean.
use crate::languages::plain_tables_hold;
use crate::partial_rows::ROWS;
use crate::{text_rows, texts};
use std::test::Fail;

#[test]
fn templates_come_to_what_they_mean(rt: HostRuntime) -> Result<(), Fail> {
    let tables = [
        (text_rows::NAMES, 17),
        (text_rows::EXPRESSIONS, 17),
        (text_rows::BLOCKS, 14),
        (text_rows::FRAMES, 9),
    ];
    plain_tables_hold(rt.alloc(), &tables, false)
}

#[test]
fn texts_have_one_reading(rt: HostRuntime) -> Result<(), Fail> {
    let tables = [
        (texts::EXPRESSIONS, 40),
        (texts::BLOCKS, 40),
        (texts::FRAMES, 40),
    ];
    plain_tables_hold(rt.alloc(), &tables, false)
}

#[test]
fn partials_are_rendered_from_all_stores(rt: HostRuntime) -> Result<(), Fail> {
    plain_tables_hold(rt.alloc(), &[(ROWS, 14)], true)
}
