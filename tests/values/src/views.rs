//! Views of the types of a program: each is as the value that it means.
use crate::texts::is_kstr;
use crate::value::{has_text, is_number};
use liquid_dates::{Date, DateError, DateTime};
use liquid_scalar::{Scalar, ScalarCow};
use liquid_value::{Object, State, Value, ValueCow};
use liquid_views::{
    ArrayView, ObjectIndex, ObjectRender, ObjectSource, ObjectView, ValueView, array_of, object_of,
    scalar_of,
};
use rows::{holds, is_text};
use std::alloc::{AllocError, Global};
use std::borrow::CowStr;
use std::collections::{BTreeMap, HashMap};
use std::test::Fail;

/// Returns `true` if the value that a view borrows or copies was made and is this one.
fn is_value(found: Result<ValueCow<'_>, AllocError>, value: &Value) -> bool {
    match found {
        Ok(found) => *found.as_view() == *value,
        Err(_) => false,
    }
}

/// Returns `true` if a view's value was made with this text and this type, and is what the view borrows or copies.
fn is_meant(
    alloc: Global,
    made: Result<Value, AllocError>,
    found: Result<ValueCow<'_>, AllocError>,
    text: &str,
    name: &str,
) -> bool {
    match made {
        Ok(value) => {
            has_text(alloc, &value, text) & (value.type_name() == name) & is_value(found, &value)
        }
        Err(_) => false,
    }
}

/// Returns `true` if the view renders, shows its source, and is the value, all as the value itself.
fn is_shown<V: ValueView>(alloc: Global, view: &V, render: &str, source: &str, name: &str) -> bool {
    is_kstr(view.to_kstr(alloc), render)
        && is_text(view.render().to_string(alloc), render)
        && is_text(view.source().to_string(alloc), source)
        && view.type_name() == name
        && is_meant(
            alloc,
            view.to_value(alloc),
            ValueView::to_cow(view, alloc),
            render,
            name,
        )
}

/// Returns `true` if numbers are integers.
fn numbers_are_shown(alloc: Global) -> bool {
    let number = "whole number";
    let (least, greatest) = ("-9223372036854775808", "4294967295");
    is_shown(alloc, &-8i8, "-8", "-8", number)
        && is_shown(alloc, &-300i16, "-300", "-300", number)
        && is_shown(alloc, &70000i32, "70000", "70000", number)
        && is_shown(alloc, &i64::MIN, least, least, number)
        && is_shown(alloc, &8u8, "8", "8", number)
        && is_shown(alloc, &300u16, "300", "300", number)
        && is_shown(alloc, &u32::MAX, greatest, greatest, number)
}

#[test]
fn numbers_are_whole_numbers(rt: HostRuntime) -> Result<(), Fail> {
    holds(numbers_are_shown(rt.alloc()), "numbers")?;
    holds(1i64.is_scalar() && !1i64.is_nil(), "a number is a scalar")
}

/// Returns `true` if a text was made and is shown.
fn string_is_shown(alloc: Global, made: Result<String, AllocError>) -> bool {
    match made {
        Ok(text) => is_shown(alloc, &text, "a", "\"a\"", "string"),
        Err(_) => false,
    }
}

/// Returns `true` if a borrowed text is shown.
fn scalar_is_shown(alloc: Global) -> bool {
    let borrowed: ScalarCow<'_> = ScalarCow::Str(CowStr::Borrowed("b"));
    is_shown(alloc, &borrowed, "b", "\"b\"", "string")
}

#[test]
fn texts_and_truth_values(rt: HostRuntime) -> Result<(), Fail> {
    let alloc = rt.alloc();
    holds(
        is_shown(alloc, &true, "true", "true", "boolean")
            && is_shown(alloc, &"a", "a", "\"a\"", "string")
            && string_is_shown(alloc, String::from_str(alloc, "a"))
            && scalar_is_shown(alloc),
        "a truth value and texts",
    )
}

/// Returns `true` if a text and a number are scalars.
fn are_scalars() -> bool {
    "a".as_scalar().is_some() && "a".as_state().is_none() && scalar_of(4i64) == Scalar::Integer(4)
}

/// Returns `true` if a text was made and is the index of what stands under it.
fn is_index(made: Result<String, AllocError>, index: &str) -> bool {
    match made {
        Ok(text) => text.as_index() == index,
        Err(_) => false,
    }
}

#[test]
fn texts_and_truth_values_are_in_states(rt: HostRuntime) -> Result<(), Fail> {
    holds(
        false.query_state(State::Blank)
            && " ".query_state(State::Blank)
            && !" ".query_state(State::Empty)
            && are_scalars()
            && is_index(String::from_str(rt.alloc(), "key"), "key"),
        "what is blank, a scalar or an index",
    )
}

#[test]
fn states_are_shown(rt: HostRuntime) -> Result<(), Fail> {
    holds(
        is_shown(rt.alloc(), &State::Empty, "", "empty", "empty")
            && State::Empty.is_state()
            && State::Blank.as_state() == Some(State::Blank),
        "it is that state",
    )
}

/// Returns `true` if what may be absent is as what is there, or nil.
fn options_are_shown(alloc: Global) -> bool {
    let absent: Option<i64> = None;
    is_shown(alloc, &Some(5i64), "5", "5", "whole number")
        && is_shown(alloc, &absent, "", "nil", "nil")
        && absent.is_nil()
}

/// Returns `true` if nil is shown, by itself and borrowed.
fn nil_is_shown(alloc: Global, nil: &Value) -> bool {
    is_shown(alloc, nil, "", "nil", "nil")
        && is_shown(alloc, &ValueCow::Borrowed(nil), "", "nil", "nil")
}

#[test]
fn what_may_be_absent_is_shown(rt: HostRuntime) -> Result<(), Fail> {
    let alloc = rt.alloc();
    holds(
        options_are_shown(alloc)
            && nil_is_shown(alloc, &Value::Nil)
            && is_shown(alloc, &&5i64, "5", "5", "whole number"),
        "what may be absent, and a reference",
    )
}

/// Returns a date, and a date time of it.
fn dates() -> Result<(Date, DateTime), DateError> {
    let day = Date::from_ymd(2016, 2, 16)?;
    Ok((day, DateTime::from_parts(day, 10, 0, 0, 0, 3600)?))
}

/// Returns `true` if a date and a date time of it are shown.
fn dates_are_shown(alloc: Global) -> bool {
    let (date, text) = ("2016-02-16", "2016-02-16 10:00:00 +0100");
    match dates() {
        Ok((day, moment)) => {
            is_shown(alloc, &day, date, date, "date")
                && is_shown(alloc, &moment, text, text, "date time")
        }
        Err(_) => false,
    }
}

#[test]
fn dates_and_date_times(rt: HostRuntime) -> Result<(), Fail> {
    holds(dates_are_shown(rt.alloc()), "a date and a date time")
}

/// Returns the value of an array that is built of the items of a list.
fn copied(alloc: Global, list: &Vec<i64>) -> Option<Value> {
    array_of(alloc, list).ok()?.to_value(alloc).ok()
}

/// Returns `true` if an array that is built of the items of a list is as the list.
fn is_copied(alloc: Global, list: &Vec<i64>) -> bool {
    match copied(alloc, list).zip(list.to_value(alloc).ok()) {
        Some((copied, value)) => copied == value,
        None => false,
    }
}

/// Returns `true` if a list of 1 and 2 was made and is an array.
fn is_a_list(alloc: Global, made: Result<Vec<i64>, AllocError>) -> bool {
    match made {
        Ok(list) => {
            is_shown(alloc, &list, "12", "[1, 2, ]", "array")
                & list.is_array()
                & !list.is_object()
                & is_copied(alloc, &list)
        }
        Err(_) => false,
    }
}

fn one_and_two(alloc: Global) -> Result<Vec<i64>, AllocError> {
    Ok(vec![in alloc; 1, 2]?)
}

/// Returns `true` if a list is shown, and an empty one is in the state for that.
fn lists_are_shown(alloc: Global) -> bool {
    let nothing: Vec<i64> = Vec::new(alloc);
    is_a_list(alloc, one_and_two(alloc)) & nothing.query_state(State::Empty)
}

#[test]
fn lists_are_arrays(rt: HostRuntime) -> Result<(), Fail> {
    holds(lists_are_shown(rt.alloc()), "a list, and an empty one")
}

fn first_ten(alloc: Global) -> Result<Vec<i64>, AllocError> {
    Ok(vec![in alloc; 0, 1, 2, 3, 4, 5, 6, 7, 8, 9]?)
}

/// Returns the number at an index, if there is one.
fn found(ten: &Vec<i64>, index: i64) -> Option<i64> {
    ArrayView::get(ten, index).copied()
}

/// Returns `true` if the ten items are at their indexes, and no index is beyond them.
fn has_ten_items(ten: &Vec<i64>) -> bool {
    ten.size() == 10
        && ArrayView::values(ten).len() == 10
        && ten.contains_key(-10)
        && !ten.contains_key(-11)
        && ten.contains_key(9)
        && !ten.contains_key(10)
        && !ten.contains_key(i64::MIN)
        && found(ten, -1) == Some(9)
        && found(ten, -11).is_none()
        && found(ten, 3) == Some(3)
}

/// Returns `true` if ten items were made and are at their indexes.
fn has_ten(made: Result<Vec<i64>, AllocError>) -> bool {
    match made {
        Ok(ten) => has_ten_items(&ten),
        Err(_) => false,
    }
}

#[test]
fn indexes_count_from_both_ends(rt: HostRuntime) -> Result<(), Fail> {
    holds(has_ten(first_ten(rt.alloc())), "ten items at their indexes")
}

/// Returns `true` if ten items were made, and the first and the last are found, the last through a reference too.
fn has_ends(made: Result<Vec<i64>, AllocError>) -> bool {
    match made {
        Ok(ten) => {
            (ArrayView::first(&ten).copied() == Some(0))
                & (ArrayView::last(&ten).copied() == Some(9))
                & (ArrayView::last(&&ten).copied() == Some(9))
        }
        Err(_) => false,
    }
}

#[test]
fn arrays_have_a_first_and_a_last_item(rt: HostRuntime) -> Result<(), Fail> {
    holds(has_ends(first_ten(rt.alloc())), "the first and the last")
}

/// Puts a name into a map, and returns `true` if memory doesn't run out.
fn add(alloc: Global, map: &mut BTreeMap<String, i64>, name: &str, number: i64) -> bool {
    match String::from_str(alloc, name) {
        Ok(name) => map.insert(name, number).is_ok(),
        Err(_) => false,
    }
}

/// Puts two names into a map, and returns `true` if memory doesn't run out.
fn add_two(alloc: Global, map: &mut BTreeMap<String, i64>) -> bool {
    add(alloc, map, "b", 2) && add(alloc, map, "a", 1)
}

/// Returns `true` if an object displays these texts, as a view and as an object.
fn object_is_shown<O: ObjectView>(alloc: Global, object: &O, render: &str, source: &str) -> bool {
    is_shown(alloc, object, render, source, "object")
        && is_text(ObjectRender::new(object).to_string(alloc), render)
        && is_text(ObjectSource::new(object).to_string(alloc), source)
}

/// Returns `true` if a map of two names is shown as an object.
fn map_is_shown(alloc: Global) -> bool {
    let mut map: BTreeMap<String, i64> = BTreeMap::new(alloc);
    add_two(alloc, &mut map) & object_is_shown(alloc, &map, "a1b2", "{\"a\": 1, \"b\": 2, }")
}

#[test]
fn maps_are_objects(rt: HostRuntime) -> Result<(), Fail> {
    holds(map_is_shown(rt.alloc()), "a map is shown")
}

/// Returns `true` if the object finds this number under a name, and nothing under another.
fn finds<O: ObjectView>(alloc: Global, object: &O, name: &str, number: i64, other: &str) -> bool {
    ObjectView::contains_key(object, name)
        && !ObjectView::contains_key(object, other)
        && is_number(object.lookup(alloc, name), number)
        && matches!(object.lookup(alloc, other), Ok(None))
}

/// Returns `true` if the names of an object were found and are these.
fn are_names(found: Result<Vec<&str>, AllocError>, names: &[&str]) -> bool {
    match found {
        Ok(found) => found.as_slice() == names,
        Err(_) => false,
    }
}

/// Returns `true` if a map finds its two names.
fn has_two_names(alloc: Global) -> bool {
    let mut map: BTreeMap<String, i64> = BTreeMap::new(alloc);
    add_two(alloc, &mut map)
        & (map.size() == 2)
        & finds(alloc, &map, "b", 2, "c")
        & are_names(ObjectView::keys(&map, alloc), &["a", "b"])
}

#[test]
fn maps_find_their_names(rt: HostRuntime) -> Result<(), Fail> {
    holds(has_two_names(rt.alloc()), "two names in their order")
}

/// Returns `true` if an object has the later one of the values of `a`, and a reference finds its names.
fn has_later_value(alloc: Global, made: Result<Object, AllocError>) -> bool {
    match made {
        Ok(object) => {
            is_shown(alloc, &object, "a3b2", "{\"a\": 3, \"b\": 2, }", "object")
                & ObjectView::contains_key(&&object, "b")
        }
        Err(_) => false,
    }
}

#[test]
fn later_pairs_win(rt: HostRuntime) -> Result<(), Fail> {
    let alloc = rt.alloc();
    let object = object_of(alloc, &[("a", 1i64), ("b", 2), ("a", 3)]);
    holds(has_later_value(alloc, object), "the later value")
}

/// Puts a name into a map without order, and returns `true` if memory doesn't run out.
fn add_hashed(alloc: Global, map: &mut HashMap<String, i64>, name: &str, number: i64) -> bool {
    match String::from_str(alloc, name) {
        Ok(name) => map.insert(name, number).is_ok(),
        Err(_) => false,
    }
}

/// Puts three names into a map without order, and returns `true` if memory doesn't run out.
fn add_three(alloc: Global, map: &mut HashMap<String, i64>) -> bool {
    add_hashed(alloc, map, "b", 2)
        && add_hashed(alloc, map, "c", 3)
        && add_hashed(alloc, map, "a", 1)
}

/// Returns `true` if a map without order is shown, empty and with three names.
fn hashed_is_shown(alloc: Global) -> bool {
    let source = "{\"a\": 1, \"b\": 2, \"c\": 3, }";
    let mut map: HashMap<String, i64> = HashMap::new(alloc);
    is_shown(alloc, &map, "", "{}", "object")
        & add_three(alloc, &mut map)
        & is_shown(alloc, &map, "a1b2c3", source, "object")
}

#[test]
fn maps_without_order_are_told_by_name(rt: HostRuntime) -> Result<(), Fail> {
    holds(hashed_is_shown(rt.alloc()), "an empty map, and three names")
}

/// Returns `true` if a map without order finds its three names.
fn has_three_names(alloc: Global) -> bool {
    let mut map: HashMap<String, i64> = HashMap::new(alloc);
    add_three(alloc, &mut map)
        & (map.size() == 3)
        & finds(alloc, &map, "c", 3, "d")
        & are_names(ObjectView::keys(&map, alloc), &["a", "b", "c"])
}

#[test]
fn maps_without_order_find_their_names(rt: HostRuntime) -> Result<(), Fail> {
    holds(has_three_names(rt.alloc()), "three names in their order")
}
