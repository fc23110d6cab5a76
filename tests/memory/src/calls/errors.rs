//! Calls of errors.
use crate::calls::answers::{Answer, Answered};
use crate::calls::given::Given;
use liquid_core::error::{
    Cause, CloneableError, Error, FnKey, Key, Place, Report, Result, ResultLiquidChainExt,
    ResultLiquidExt, ResultLiquidReplaceExt,
};
use std::alloc::Global;

fn cloned_report<'g>(error: Error) -> Answered<'g> {
    match error {
        Error::Liquid(report, cause) => {
            let copy = Report::clone(&report);
            drop(report);
            drop(cause);
            Ok(Answer::Refused(Error::Liquid(copy?, None)))
        }
        Error::Memory => Ok(Answer::Memory),
    }
}

/// Makes the calls of Results that have an error.
fn of_results<'g>(alloc: Global, word: &str, error: Error) -> Answered<'g> {
    let failed: Result<()> = Err(error);
    let answered = match word {
        "trace_result" => ResultLiquidExt::trace(failed, alloc, "t"),
        "key" => Key::value(ResultLiquidExt::context_key(failed, "k"), alloc, "v"),
        "made_key" => {
            let made = || String::from_str(alloc, "k");
            FnKey::value(ResultLiquidExt::context_key_with(failed, made), alloc, "v")
        }
        "chain" => ResultLiquidChainExt::chain(failed, alloc, "b"),
        "lossy_chain" => ResultLiquidReplaceExt::lossy_chain(failed, alloc, "b"),
        _ => ResultLiquidReplaceExt::replace(failed, alloc, "b"),
    };
    answered?;
    Ok(Answer::Done)
}

/// Makes the calls that make an error.
fn of_new<'g>(alloc: Global, word: &str, given: &'g mut Given) -> Answered<'g> {
    match word {
        "with_msg" => Ok(Answer::from(Error::with_msg(alloc, "m"))),
        "with_text" => {
            let text = std::mem::replace(&mut given.alone.text, String::new(alloc));
            Ok(Answer::from(Error::with_text(alloc, text)))
        }
        _ => {
            let place = Place { line: 1, column: 2 };
            Ok(Answer::from(Error::at_place(alloc, "m", place)))
        }
    }
}

/// Returns the error that a call takes.
fn error(given: &mut Given) -> Error {
    std::mem::replace(&mut given.errors.error, Error::Memory)
}

/// Makes an error the cause of another.
fn caused<'g>(alloc: Global, given: &'g mut Given) -> Answered<'g> {
    let none = Cause::Error(Box::new(alloc, Error::Memory)?);
    let cause = std::mem::replace(&mut given.errors.cause, none);
    Ok(Answer::from(Error::cause(error(given), cause)))
}

/// Makes the calls that add to an error.
fn of_changes<'g>(alloc: Global, word: &str, error: Error) -> Answered<'g> {
    match word {
        "trace" => Ok(Answer::from(Error::trace(error, alloc, "t"))),
        "context" => Ok(Answer::from(Error::context(error, alloc, "k", "v"))),
        _ => {
            let place = Place { line: 1, column: 2 };
            Ok(Answer::from(Error::or_place(error, place)))
        }
    }
}

/// Makes the calls that copy an error, a cause or an error that is kept.
fn of_copies<'g>(word: &str, given: &'g Given) -> Answered<'g> {
    match word {
        "clone" => Ok(Answer::from(Error::clone(&given.errors.error)?)),
        "clone_cause" => Ok(Answer::Cause(Cause::clone(&given.errors.cause)?)),
        _ => Ok(Answer::Kept(CloneableError::clone(&given.errors.kept)?)),
    }
}

/// Makes the calls that take an error whole: one copies its report, the other keeps it.
fn of_wholes<'g>(alloc: Global, word: &str, error: Error) -> Answered<'g> {
    match word {
        "clone_report" => cloned_report(error),
        _ => Ok(Answer::Kept(CloneableError::new(alloc, error)?)),
    }
}

/// Makes a call of errors.
pub fn call<'g>(alloc: Global, word: &str, given: &'g mut Given) -> Answered<'g> {
    match word {
        "with_msg" | "with_text" | "at_place" => of_new(alloc, word, given),
        "clone" | "clone_cause" | "clone_kept" => of_copies(word, given),
        "cause" => caused(alloc, given),
        "trace" | "context" | "or_place" => of_changes(alloc, word, error(given)),
        "clone_report" | "kept" => of_wholes(alloc, word, error(given)),
        _ => of_results(alloc, word, error(given)),
    }
}
