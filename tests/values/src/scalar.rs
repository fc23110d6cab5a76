//! Scalars with their texts, their conversions, and what they are compared with.
use crate::texts::is_kstr;
use crate::value::{day, moment, name_of};
use liquid_dates::{Date, DateTime};
use liquid_scalar::{Scalar, ScalarCow};
use rows::{Line, holds, is_text, rows_hold};
use serde_json::Value as Json;
use std::alloc::{AllocError, Global};
use std::cmp::Ordering;
use std::hash::{DefaultHasher, Hash, Hasher};
use std::test::Fail;

fn owned(alloc: Global, text: &str) -> Result<Scalar, AllocError> {
    Ok(Scalar::new(String::from_str(alloc, text)?))
}

fn hash_of(scalar: &Scalar) -> u64 {
    let mut hasher = DefaultHasher::new();
    scalar.hash(&mut hasher);
    hasher.finish()
}

// A text, and the integer that it writes, if it writes one.
const NUMBERS: &str = r#"["5", 5]
["+5", 5]
["-007", -7]
["9223372036854775807", 9223372036854775807]
["9223372036854775808"]
["-9223372036854775808", -9223372036854775808]
["-9223372036854775809"]
[""]
["-"]
[" 5"]
["5.0"]
["true"]"#;

/// Returns the integer of a scalar.
fn number_of(scalar: ScalarCow<'_>) -> Option<i64> {
    scalar.to_integer()
}

fn writes_number(_alloc: Global, row: &Line) -> bool {
    match row.text(0) {
        Some(text) => number_of(ScalarCow::new(text)) == row.number(1),
        None => false,
    }
}

#[test]
fn texts_that_write_whole_numbers(rt: HostRuntime) -> Result<(), Fail> {
    rows_hold(rt.alloc(), NUMBERS, writes_number)
}

/// Returns the boolean of a scalar.
fn truth_of(scalar: ScalarCow<'_>) -> Option<bool> {
    scalar.to_bool()
}

#[test]
fn only_truth_values_are_truth_values(_rt: HostRuntime) -> Result<(), Fail> {
    holds(
        number_of(ScalarCow::new(-3i8)) == Some(-3) && number_of(ScalarCow::new(true)).is_none(),
        "a number, and a truth value that is none",
    )?;
    holds(
        truth_of(ScalarCow::new(true)) == Some(true) && truth_of(ScalarCow::new("true")).is_none(),
        "a truth value, and a text that is none",
    )
}

/// Returns the date or the date time that a row gives.
fn dated_in(given: &Json) -> Option<ScalarCow<'static>> {
    match given.get("day") {
        Some(number) => Some(ScalarCow::new(day(number.as_i64()?)?)),
        None => Some(ScalarCow::new(moment(given.get("moment")?)?)),
    }
}

/// Returns the scalar that a row gives: a text, a boolean, an integer, or a date or a date time as in the rows of
/// values.
fn scalar_in(given: &Json) -> Option<ScalarCow<'_>> {
    match given {
        Json::String(text) => Some(ScalarCow::new(text.as_str())),
        Json::Bool(truth) => Some(ScalarCow::new(*truth)),
        Json::Number(_) => Some(ScalarCow::new(given.as_i64()?)),
        _ => dated_in(given),
    }
}

/// Returns the scalar at a place of a row.
fn scalar_at(row: &Line, place: usize) -> Option<ScalarCow<'_>> {
    match row.member(place) {
        Some(given) => scalar_in(given),
        None => None,
    }
}

/// Returns `true` if two scalars compare as a row says.
fn compare(left: &ScalarCow<'_>, right: &ScalarCow<'_>, row: &Line) -> bool {
    match row.text(0) {
        Some("loosely") => row.truth(3) == Some(left.scalar_eq(right)),
        Some("strictly") => row.truth(3) == Some(*left == *right),
        Some("in order") => row.text(3) == name_of(left.scalar_cmp(right)),
        _ => false,
    }
}

/// Returns `true` if the scalars of a row compare as it says.
fn are_compared(_alloc: Global, row: &Line) -> bool {
    match scalar_at(row, 1).zip(scalar_at(row, 2)) {
        Some((left, right)) => compare(&left, &right, row),
        None => false,
    }
}

// How two scalars are compared, the scalars, and whether they are equal.
const EQUALITIES: &str = r#"["loosely", true, "", true]
["loosely", 1, true, true]
["loosely", false, "", false]
["loosely", 1, "1", false]
["strictly", 1, "1", false]
["strictly", true, 1, false]"#;

/// Returns `true` if two scalars are loosely equal.
fn are_equal(one: ScalarCow<'_>, other: ScalarCow<'_>) -> bool {
    one.scalar_eq(&other)
}

#[test]
fn scalars_are_loosely_equal(rt: HostRuntime) -> Result<(), Fail> {
    rows_hold(rt.alloc(), EQUALITIES, are_compared)?;
    holds(
        are_equal(ScalarCow::new(1u8), ScalarCow::new(1i64)),
        "a number and itself",
    )
}

// The same, with the loose order of the scalars.
const ORDERS: &str = r#"["in order", false, true, "less"]
["in order", "1", "", "greater"]
["in order", "10", "9", "less"]
["in order", 1, "1", null]
["in order", true, 1, null]"#;

/// Returns the loose order of two scalars, if they have one.
fn order_of(left: ScalarCow<'_>, right: ScalarCow<'_>) -> Option<Ordering> {
    left.scalar_cmp(&right)
}

#[test]
fn scalars_are_loosely_ordered(rt: HostRuntime) -> Result<(), Fail> {
    rows_hold(rt.alloc(), ORDERS, are_compared)?;
    let order = order_of(ScalarCow::new(10u16), ScalarCow::new(9u32));
    holds(order == Some(Ordering::Greater), "numbers")
}

/// Returns `true` if a copy of a scalar has this text.
fn copy_has_text(alloc: Global, scalar: &ScalarCow<'_>, text: &str) -> bool {
    match scalar.clone() {
        Ok(copy) => is_text(copy.into_string(alloc), text),
        Err(_) => false,
    }
}

/// Returns `true` if a scalar renders, shows its source, and names its type, and a copy has its text.
fn displays(alloc: Global, scalar: &ScalarCow<'_>, render: &str, source: &str, kind: &str) -> bool {
    is_text(scalar.render().to_string(alloc), render)
        && is_text(scalar.source().to_string(alloc), source)
        && is_kstr(scalar.to_kstr(alloc), render)
        && scalar.type_name() == kind
        && copy_has_text(alloc, scalar, render)
}

/// Returns `true` if a scalar renders, shows its source, names its type, and is its text.
fn is_shown(alloc: Global, scalar: ScalarCow<'_>, render: &str, source: &str, kind: &str) -> bool {
    displays(alloc, &scalar, render, source, kind) & is_kstr(scalar.into_cow_str(alloc), render)
}

/// Returns `true` if a number, a boolean and a text are shown.
fn scalars_are_shown(alloc: Global) -> bool {
    is_shown(alloc, ScalarCow::new(-12i32), "-12", "-12", "whole number")
        && is_shown(alloc, ScalarCow::new(false), "false", "false", "boolean")
        && is_shown(alloc, ScalarCow::new("a\"b"), "a\"b", "\"a\"b\"", "string")
}

#[test]
fn renders_and_sources(rt: HostRuntime) -> Result<(), Fail> {
    holds(scalars_are_shown(rt.alloc()), "texts and types")
}

/// Returns `true` if a copy of a scalar is the same and has the same hash.
fn has_a_copy(scalar: &Scalar) -> bool {
    match scalar.clone() {
        Ok(copy) => (copy == *scalar) & (hash_of(&copy) == hash_of(scalar)),
        Err(_) => false,
    }
}

/// Returns `true` if a scalar was made and is this one.
fn is_same(made: Result<Scalar, AllocError>, scalar: &Scalar) -> bool {
    match made {
        Ok(made) => made == *scalar,
        Err(_) => false,
    }
}

/// Returns `true` if a scalar was made and becomes this string.
fn is_string(alloc: Global, made: Result<Scalar, AllocError>, text: &str) -> bool {
    match made {
        Ok(scalar) => is_text(scalar.into_string(alloc), text),
        Err(_) => false,
    }
}

/// Returns `true` if copies of a scalar are the same, and become this string.
fn has_copies(alloc: Global, scalar: &Scalar, text: &str) -> bool {
    has_a_copy(scalar)
        && is_same(scalar.as_ref().into_owned(alloc), scalar)
        && is_string(alloc, scalar.clone(), text)
}

/// Returns `true` if a scalar was made, its copies are the same, and it becomes this text.
fn is_owned(alloc: Global, made: Result<Scalar, AllocError>, text: &str) -> bool {
    match made {
        Ok(scalar) => has_copies(alloc, &scalar, text) & is_kstr(scalar.into_cow_str(alloc), text),
        Err(_) => false,
    }
}

#[test]
fn owned_scalars_are_the_same(rt: HostRuntime) -> Result<(), Fail> {
    let alloc = rt.alloc();
    holds(is_owned(alloc, owned(alloc, "abc"), "abc"), "copies")
}

/// Returns `true` if two scalars are strictly equal.
fn is_strictly(left: &ScalarCow<'_>, right: ScalarCow<'_>) -> bool {
    *left == right
}

/// Returns `true` if a copy of a borrowed text was made, and it is as that and as another text `k`.
fn is_as_copy(
    alloc: Global,
    borrowed: &ScalarCow<'_>,
    copy: Result<ScalarCow<'_>, AllocError>,
) -> bool {
    match copy {
        Ok(copy) => { copy.scalar_eq(borrowed) & is_moved(&copy, String::from_str(alloc, "k")) }
        Err(_) => false,
    }
}

/// Returns `true` if a text was made and a scalar is as it.
fn is_moved(scalar: &ScalarCow<'_>, made: Result<String, AllocError>) -> bool {
    match made {
        Ok(text) => is_strictly(scalar, ScalarCow::new(text)),
        Err(_) => false,
    }
}

/// Returns `true` if a text was made, and what is borrowed of it and a copy are as others of that text.
fn is_lent(alloc: Global, made: Result<String, AllocError>) -> bool {
    match made {
        Ok(kept) => is_copied(alloc, &ScalarCow::new(&kept)),
        Err(_) => false,
    }
}

/// Returns `true` if a borrowed scalar of the text `k` and a copy of it are as others of that text.
fn is_copied(alloc: Global, borrowed: &ScalarCow<'_>) -> bool {
    is_strictly(borrowed, ScalarCow::new("k")) && is_as_copy(alloc, borrowed, borrowed.clone())
}

#[test]
fn borrowed_scalars_are_the_same(rt: HostRuntime) -> Result<(), Fail> {
    let alloc = rt.alloc();
    holds(
        is_lent(alloc, String::from_str(alloc, "k")),
        "a borrowed text",
    )
}

// How two scalars are compared, of which one is a date time, the scalars, and the result: loosely by days, and strictly by
// instants and kinds.
const DATES: &str = r#"["loosely", {"day": 16}, {"moment": [10, 3600]}, true]
["loosely", {"moment": [10, 3600]}, {"day": 17}, false]
["in order", {"day": 16}, {"moment": [10, 3600]}, "equal"]
["in order", {"day": 17}, {"moment": [10, 3600]}, "greater"]
["in order", {"moment": [10, 3600]}, {"day": 17}, "less"]
["strictly", {"moment": [10, 3600]}, {"moment": [9, 0]}, true]
["strictly", {"day": 16}, {"moment": [10, 3600]}, false]"#;

#[test]
fn dates_and_date_times_are_compared(rt: HostRuntime) -> Result<(), Fail> {
    rows_hold(rt.alloc(), DATES, are_compared)
}

/// Returns `true` if a scalar has this name of its type, and this text.
fn is_named(alloc: Global, scalar: &ScalarCow<'_>, name: &str, text: &str) -> bool {
    scalar.type_name() == name && is_kstr(scalar.to_kstr(alloc), text)
}

/// Returns `true` if there is a date, with the name of its type and its text.
fn date_has_text(alloc: Global, date: Option<Date>, text: &str) -> bool {
    match date {
        Some(date) => is_named(alloc, &ScalarCow::new(date), "date", text),
        None => false,
    }
}

/// Returns the date time of 16 February 2016, at 10 of a clock that is an hour ahead.
fn morning() -> Option<DateTime> {
    DateTime::from_parts(day(16)?, 10, 0, 0, 0, 3600).ok()
}

/// Returns `true` if a scalar is of a date time, and becomes this text.
fn is_moment_text(alloc: Global, scalar: ScalarCow<'_>, text: &str) -> bool {
    (scalar.type_name() == "date time") & is_text(scalar.into_string(alloc), text)
}

/// Returns `true` if there is a date time, and it becomes this text.
fn moment_has_text(alloc: Global, moment: Option<DateTime>, text: &str) -> bool {
    match moment {
        Some(moment) => is_moment_text(alloc, ScalarCow::new(moment), text),
        None => false,
    }
}

#[test]
fn dates_and_date_times_have_texts(rt: HostRuntime) -> Result<(), Fail> {
    let alloc = rt.alloc();
    holds(
        date_has_text(alloc, day(17), "2016-02-17")
            && moment_has_text(alloc, morning(), "2016-02-16 10:00:00 +0100"),
        "a date and a date time",
    )
}

/// Returns the first moment of 13 June 2016.
fn june() -> Option<DateTime> {
    DateTime::from_ymd(2016, 6, 13).ok()
}

/// Returns `true` if a scalar is 13 June 2016 where this is the present moment.
fn has_date(scalar: ScalarCow<'_>, moment: DateTime) -> bool {
    match Date::from_ymd(2016, 6, 13) {
        Ok(day) => scalar.to_date(moment) == Some(day),
        Err(_) => false,
    }
}

/// Returns `true` if a scalar is the present moment, if that is this one.
fn has_date_time(scalar: ScalarCow<'_>, moment: DateTime) -> bool {
    match scalar.to_date_time(moment) {
        Some(date_time) => date_time == moment,
        None => false,
    }
}

// A text, and whether it is 13 June 2016 where that is today.
const DAYS: &str = r#"["13 Jun 2016", true]
["today", true]
["14 Jun 2016", false]"#;

fn is_day(_alloc: Global, row: &Line) -> bool {
    match row.text(0).zip(june()) {
        Some((text, moment)) => row.truth(1) == Some(has_date(ScalarCow::new(text), moment)),
        None => false,
    }
}

// A text, and whether it is the first moment of that day where that is now.
const MOMENTS: &str = r#"["2016-06-13 02:00:00 +0200", true]
["Now", true]
["13", false]"#;

fn is_moment(_alloc: Global, row: &Line) -> bool {
    match row.text(0).zip(june()) {
        Some((text, moment)) => row.truth(1) == Some(has_date_time(ScalarCow::new(text), moment)),
        None => false,
    }
}

/// Returns `true` if a number is no date.
fn number_is_no_date() -> bool {
    match june() {
        Some(moment) => !has_date(ScalarCow::new(5i64), moment),
        None => false,
    }
}

#[test]
fn scalars_convert_to_dates(rt: HostRuntime) -> Result<(), Fail> {
    rows_hold(rt.alloc(), DAYS, is_day)?;
    rows_hold(rt.alloc(), MOMENTS, is_moment)?;
    holds(number_is_no_date(), "a number is no date")
}
