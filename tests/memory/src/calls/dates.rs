//! Calls of dates.
use crate::calls::answers::{Answer, Answered};
use crate::calls::given::Given;
use liquid_core::model::DateTime;
use std::alloc::Global;

/// Makes a call of dates.
pub fn call<'g>(alloc: Global, word: &str, given: &'g mut Given) -> Answered<'g> {
    match word {
        "format" => Ok(Answer::Text(DateTime::format(&given.alone.moment, alloc, "%Y-%j, %A")?)),
        _ => Ok(Answer::Text(DateTime::to_rfc2822(given.alone.moment, alloc)?)),
    }
}
