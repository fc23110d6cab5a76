//! Long inputs have their answers, and memory doesn't run out.
use liquid_error::Error;
use liquid_filters::list::sums::sum;
use liquid_filters::sort::order::sort;
use liquid_filters::string::truncatewords;
use liquid_std::conditions::contains;
use liquid_value::{Array, SharedArray, Value, ValueCow};
use rows::holds;
use std::alloc::{AllocError, Global};
use std::test::Fail;

/// How many items a long list has.
const ITEMS: i64 = 100_002;

/// How many words a long text has, each of two bytes with the blank after it.
const WORDS: usize = 600_000;

/// Returns the list of the numbers from the last one down to 1.
fn numbers(alloc: Global) -> Result<Value, AllocError> {
    let mut items = Array::new(alloc);
    for number in 0..ITEMS {
        items.push(Value::scalar(ITEMS.saturating_sub(number)))?;
    }
    Ok(Value::Array(SharedArray::Own(items)))
}

/// Returns a text of many words.
fn words(alloc: Global) -> Result<Value, AllocError> {
    let mut text = String::new(alloc);
    for _ in 0..WORDS {
        text.push_str("a ")?;
    }
    Ok(Value::scalar(text))
}

/// Returns `true` if the list of the numbers from 1 on is sorted from this one.
fn is_sorted(sorted: Value) -> bool {
    match sorted {
        Value::Array(items) => {
            let items = items.as_array();
            items.first() == Some(&Value::scalar(1i64))
                && items.last() == Some(&Value::scalar(ITEMS))
                && items.len() as i64 == ITEMS
        }
        _ => false,
    }
}

/// Returns `true` if a long list is sorted, is summed and contains its last item.
fn list_is_answered(alloc: Global) -> Result<bool, Error> {
    let list = numbers(alloc)?;
    let total = ITEMS.saturating_mul(ITEMS.saturating_add(1)) / 2;
    Ok(
        is_sorted(sort(alloc, &list, &[])?)
            && sum(alloc, &list, &[])? == Value::scalar(total)
            && contains(alloc, &list, &Value::scalar(1i64))?,
    )
}

/// Returns `true` if a long text is cut after its first words.
fn text_is_answered(alloc: Global) -> Result<bool, Error> {
    let count = [ValueCow::Owned(Value::scalar(2i64))];
    let cut = truncatewords(alloc, &words(alloc)?, &count)?;
    Ok(cut.to_kstr(alloc)?.as_str() == "a a...")
}

#[test]
fn long_inputs_are_answered(rt: HostRuntime) -> Result<(), Fail> {
    let alloc = rt.alloc();
    holds(list_is_answered(alloc).unwrap_or(false), "a long list")?;
    holds(text_is_answered(alloc).unwrap_or(false), "a long text")
}
