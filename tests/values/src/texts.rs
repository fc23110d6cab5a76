//! Texts that tests make and find, and counts.
use std::alloc::AllocError;
use std::borrow::CowStr;

/// Adds a part that many times to a text, and returns `true` if memory doesn't run out.
pub(crate) fn push_times(text: &mut String, part: &str, times: usize) -> bool {
    for _ in 0..times {
        if text.push_str(part).is_err() {
            return false;
        }
    }
    true
}

/// Returns `true` if a text was made and is the one wanted, and `false` if memory ran out.
pub(crate) fn is_kstr(found: Result<CowStr<'_>, AllocError>, wanted: &str) -> bool {
    match found {
        Ok(text) => text.as_str() == wanted,
        Err(_) => false,
    }
}

/// Returns `true` if a count is this number.
pub(crate) fn is_count(count: usize, number: Option<i64>) -> bool {
    match i64::try_from(count) {
        Ok(count) => number == Some(count),
        Err(_) => false,
    }
}
