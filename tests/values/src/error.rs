//! Errors with their texts, their causes, and what each helper of a result adds.
use liquid_error::{
    CauseOf, CloneableError, Error, FnKey, Key, Place, ResultLiquidChainExt, ResultLiquidExt,
    ResultLiquidReplaceExt,
};
use rows::{holds, is_text};
use std::alloc::{AllocError, Global};
use std::test::Fail;

/// Returns `true` if an error prints this text.
fn prints(alloc: Global, error: &Error, text: &str) -> bool {
    is_text(error.to_string(alloc), text)
}

/// Returns an error with contexts and traces.
fn traced(alloc: Global) -> Error {
    Error::with_msg(alloc, "a")
        .context(alloc, "k", "v")
        .trace(alloc, "b")
        .context(alloc, "l", "w")
        .context(alloc, "m", "x")
        .trace(alloc, "c")
}

/// Returns `true` if an error has those contexts and traces, and nothing else.
fn has_traces(alloc: Global, error: Error) -> bool {
    let text = "liquid: a\n  with:\n    k=v\nfrom: b\n  with:\n    l=w\n    m=x\nfrom: c\n";
    prints(alloc, &error, text)
        & !error.is_memory()
        & error.place().is_none()
        & error.source().is_none()
}

/// Returns `true` if an answer is an error.
fn is_error(answer: liquid_error::Result<u8>) -> bool {
    answer.is_err()
}

#[test]
fn errors_have_texts(rt: HostRuntime) -> Result<(), Fail> {
    let alloc = rt.alloc();
    holds(
        has_traces(alloc, traced(alloc)) && is_error(traced(alloc).into_err()),
        "contexts and traces, and an error as a result",
    )
}

const FIRST: Place = Place {
    line: 2,
    column: 13,
};

const LATER: Place = Place { line: 3, column: 1 };

/// Returns `true` if an error prints this text, and has the first place.
fn is_placed(alloc: Global, error: Error, text: &str) -> bool {
    prints(alloc, &error, text) & (error.place() == Some(FIRST))
}

#[test]
fn errors_have_places(rt: HostRuntime) -> Result<(), Fail> {
    let alloc = rt.alloc();
    let text = "liquid: Invalid liquid (line 2, column 13)\n";
    let placed = Error::at_place(alloc, "Invalid liquid", FIRST);
    holds(is_placed(alloc, placed, text), "the place and its text")
}

/// Returns `true` if an error is out of memory, and prints so.
fn is_out_of_memory(alloc: Global, error: Error) -> bool {
    error.is_memory() & prints(alloc, &error, "liquid: out of memory\n")
}

#[test]
fn out_of_memory_stays_so(rt: HostRuntime) -> Result<(), Fail> {
    let alloc = rt.alloc();
    let starved = Error::Memory.trace(alloc, "a").context(alloc, "k", "v");
    holds(is_out_of_memory(alloc, starved), "out of memory")
}

/// Returns an error that is placed twice.
fn placed_twice(alloc: Global) -> Error {
    Error::with_msg(alloc, "a").or_place(FIRST).or_place(LATER)
}

#[test]
fn an_error_is_placed_once(rt: HostRuntime) -> Result<(), Fail> {
    let alloc = rt.alloc();
    holds(
        is_placed(alloc, placed_twice(alloc), "liquid: a\n")
            && is_out_of_memory(alloc, Error::Memory.or_place(FIRST)),
        "the first place, and none if memory runs out",
    )
}

/// Returns a clone of an error as the cause of another one.
fn cloned_cause(alloc: Global) -> Result<CauseOf<Error>, AllocError> {
    let kept = CloneableError::new(alloc, Error::with_msg(alloc, "a"))?;
    let copy: Result<CloneableError, AllocError> = kept.clone();
    drop(kept);
    Ok(CauseOf::Cloneable(copy?))
}

/// Returns an error with two causes, one below the other.
fn caused(alloc: Global) -> Result<Error, AllocError> {
    let last = cloned_cause(alloc)?;
    let middle = Box::new(alloc, Error::with_msg(alloc, "b").cause(last))?;
    Ok(Error::with_msg(alloc, "c").cause(CauseOf::Error(middle)))
}

/// Returns a clone of the error with two causes.
fn copied(alloc: Global) -> Result<Error, AllocError> {
    caused(alloc)?.clone()
}

/// Returns `true` if a clone of the cause of an error prints this text.
fn cause_is_cloned(alloc: Global, error: &Error, text: &str) -> bool {
    match error.source() {
        Some(cause) => match cause.clone() {
            Ok(copy) => is_text(copy.to_string(alloc), text),
            Err(_) => false,
        },
        None => false,
    }
}

/// Returns `true` if an error has an error as its cause, and the cause a cause, each with its text.
fn has_causes(alloc: Global, error: &Error) -> bool {
    match error.source() {
        Some(CauseOf::Error(middle)) => {
            prints(alloc, error, "liquid: c\n")
                && prints(alloc, middle, "liquid: b\n")
                && cause_is_cloned(alloc, middle, "liquid: a\n\n")
        }
        _ => false,
    }
}

/// Returns `true` if there is an error, and it has the two causes.
fn is_caused(alloc: Global, made: Result<Error, AllocError>) -> bool {
    match made {
        Ok(error) => has_causes(alloc, &error),
        Err(_) => false,
    }
}

#[test]
fn a_clone_has_the_same_causes(rt: HostRuntime) -> Result<(), Fail> {
    let alloc = rt.alloc();
    holds(is_caused(alloc, copied(alloc)), "the causes of a clone")
}

fn refused(alloc: Global) -> liquid_error::Result<u8> {
    Error::with_msg(alloc, "a").into_err()
}

/// Returns `true` if the cause of an error prints this text, which is empty for an error without a cause.
fn cause_prints(alloc: Global, error: &Error, text: &str) -> bool {
    match error.source() {
        Some(cause) => is_text(cause.to_string(alloc), text),
        None => text.is_empty(),
    }
}

/// Returns `true` if an answer is an error that prints this text, and its cause the other one.
fn shows(alloc: Global, answer: liquid_error::Result<u8>, text: &str, cause: &str) -> bool {
    match answer {
        Ok(_) => false,
        Err(error) => prints(alloc, &error, text) & cause_prints(alloc, &error, cause),
    }
}

fn made(alloc: Global) -> Result<String, AllocError> {
    String::from_str(alloc, "b")
}

/// Returns `true` if a new error has the old one as its cause, or replaces it, if its text is given.
fn texts_are_chained(alloc: Global) -> bool {
    let new = "liquid: b\n";
    let starved: liquid_error::Result<u8> = Err(Error::Memory);
    let memory = "liquid: out of memory\n";
    shows(alloc, starved.replace(alloc, "b"), memory, "")
        && shows(alloc, refused(alloc).chain(alloc, "b"), new, "liquid: a\n")
        && shows(
            alloc,
            refused(alloc).lossy_chain(alloc, "b"),
            new,
            "liquid: a\n\n",
        )
        && shows(alloc, refused(alloc).replace(alloc, "b"), new, "")
}

/// Returns `true` if a new error has the old one as its cause, or replaces it, if a call makes its text.
fn made_texts_are_chained(alloc: Global) -> bool {
    let new = "liquid: b\n";
    let text = || made(alloc);
    shows(
        alloc,
        refused(alloc).chain_with(alloc, text),
        new,
        "liquid: a\n",
    ) && shows(
        alloc,
        refused(alloc).lossy_chain_with(alloc, text),
        new,
        "liquid: a\n\n",
    ) && shows(alloc, refused(alloc).replace_with(alloc, text), new, "")
}

#[test]
fn errors_are_chained_and_replaced(rt: HostRuntime) -> Result<(), Fail> {
    let alloc = rt.alloc();
    holds(
        texts_are_chained(alloc) && made_texts_are_chained(alloc),
        "new errors",
    )
}

/// Returns `true` if a context is added whose name and value are given.
fn has_context(alloc: Global) -> bool {
    let with = "liquid: a\n  with:\n    k=v\n";
    shows(
        alloc,
        refused(alloc).context_key("k").value(alloc, "v"),
        with,
        "",
    )
}

/// Returns `true` if a context is added whose name or value is made.
fn has_made_contexts(alloc: Global) -> bool {
    let made = || made(alloc);
    let with = "liquid: a\n  with:\n    b=b\n";
    shows(
        alloc,
        Key::value_with(refused(alloc).context_key("b"), alloc, made),
        with,
        "",
    ) && shows(
        alloc,
        refused(alloc).context_key_with(made).value(alloc, "b"),
        with,
        "",
    ) && shows(
        alloc,
        FnKey::value_with(refused(alloc).context_key_with(made), made),
        with,
        "",
    )
}

#[test]
fn contexts_are_added(rt: HostRuntime) -> Result<(), Fail> {
    let alloc = rt.alloc();
    holds(has_context(alloc) && has_made_contexts(alloc), "contexts")
}

/// Returns `true` if a trace is added to an error.
fn has_trace(alloc: Global) -> bool {
    let traced = "liquid: a\nfrom: b\n";
    shows(alloc, refused(alloc).trace(alloc, "b"), traced, "")
        && shows(
            alloc,
            refused(alloc).trace_with(alloc, || made(alloc)),
            traced,
            "",
        )
}

/// Returns `true` if a result without an error is unchanged, and the text of its trace is never made.
fn is_left_alone(alloc: Global) -> bool {
    let mut calls = 0u8;
    let fine: liquid_error::Result<u8> = Ok(7);
    let traced = fine.trace_with(alloc, || {
        calls = 1;
        made(alloc)
    });
    matches!(traced, Ok(7)) & (calls == 0)
}

#[test]
fn traces_are_added_to_an_error_alone(rt: HostRuntime) -> Result<(), Fail> {
    let alloc = rt.alloc();
    holds(
        has_trace(alloc) && is_left_alone(alloc),
        "a trace, and an answer that is not traced",
    )
}
