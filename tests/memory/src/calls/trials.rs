//! Trials of the calls of a group.
use crate::calls::answers::{Answer, shown};
use crate::calls::given::Given;
use crate::calls::texts::extended;
use crate::calls::wanted::wanted;
use crate::calls::{dates, errors, filters, json_calls, paths, plugins, runtimes, scopes, values};
use crate::growths::{MOST, Run, Seen, Verdict, taken};
use crate::problem::Problem;
use std::alloc::Global;

/// A call of a group, and the text of its result with ample memory.
#[derive(Clone, Copy)]
struct Call<'a> {
    group: &'a str,
    word: &'a str,
    wanted: &'a str,
}

/// Returns what an `extend` may leave: each of its items, in order, up to one of them.
fn beginnings(word: &str) -> &'static [&'static str] {
    match word {
        "extend" => &["a.b", "a.b.c", "a.b.c.d", "a.b.c.d.e", "a.b.c.d.e.f"],
        "variable_extend" => &[
            "a[i]",
            "a[i][1]",
            "a[i][1][2]",
            "a[i][1][2][3]",
            "a[i][1][2][3][4]",
        ],
        "object_extend" => &[
            OBJECT,
            "a{\"b\": 1two, }i\"b\"x1",
            "a{\"b\": 1two, }i\"b\"x1y1",
        ],
        "array_extend" => &[
            "[1, two, kv, ]",
            "[1, two, kv, 5, ]",
            "[1, two, kv, 5, 6, ]",
            "[1, two, kv, 5, 6, 7, ]",
            "[1, two, kv, 5, 6, 7, 8, ]",
            "[1, two, kv, 5, 6, 7, 8, 9, ]",
            "[1, two, kv, 5, 6, 7, 8, 9, 10, ]",
        ],
        _ => &[],
    }
}

/// The names and values of the object that is extended.
const OBJECT: &str = "a{\"b\": 1two, }i\"b\"";

/// Makes the call. Its result may be on either side of a Result.
fn answer<'g>(alloc: Global, call: Call<'_>, given: &'g mut Given) -> Answer<'g> {
    let word = call.word;
    let answered = match call.group {
        "dates" => dates::call(alloc, word, given),
        "errors" => errors::call(alloc, word, given),
        "json" => json_calls::call(alloc, word, given),
        "paths" => paths::call(alloc, word, given),
        "plugins" => plugins::call(alloc, word, given),
        "runtimes" => runtimes::call(alloc, word, given),
        _ => values::call(alloc, word, given),
    };
    match answered {
        Ok(answer) | Err(answer) => answer,
    }
}

/// Compares a result's text with the one that is wanted.
fn verdict_of(alloc: Global, answer: Answer<'_>, wanted: &str) -> Result<Verdict, Problem> {
    let shown = shown(alloc, &answer);
    drop(answer);
    match shown? {
        None => Ok(Verdict::Memory),
        Some(text) => Ok(Verdict::Whole.only_if(text.as_str() == wanted)),
    }
}

/// Returns `true` if a text is one of these.
fn is_among(text: &str, texts: &[&str]) -> bool {
    let mut is_there = false;
    for one in texts {
        is_there = is_there || *one == text;
    }
    is_there
}

/// Returns `true` if what the call may change is as before, or what it extends is one of the beginnings.
fn is_unchanged(
    alloc: Global,
    call: Call<'_>,
    given: &Given,
    as_before: &str,
) -> Result<bool, Problem> {
    let parts = beginnings(call.word);
    if parts.is_empty() {
        Ok(given.shown(alloc)?.as_str() == as_before)
    } else {
        Ok(is_among(extended(alloc, given, call.word)?.as_str(), parts))
    }
}

/// Makes the call after that many boxes.
fn run(
    alloc: Global,
    call: Call<'_>,
    given: &mut Given,
    as_before: &str,
    boxes: usize,
) -> Result<Run, Problem> {
    let before = taken(alloc, boxes);
    let answered = answer(alloc, call, given);
    let after = taken(alloc, MOST);
    let verdict = verdict_of(alloc, answered, call.wanted)?;
    let is_unchanged = is_unchanged(alloc, call, given, as_before)?;
    Ok(Run {
        before,
        after,
        verdict: verdict.only_if(verdict != Verdict::Memory || is_unchanged),
    })
}

/// Makes the call once more.
fn run_again(alloc: Global, call: Call<'_>, given: &mut Given) -> Result<Run, Problem> {
    let answered = answer(alloc, call, given);
    Ok(Run {
        before: None,
        after: None,
        verdict: verdict_of(alloc, answered, call.wanted)?,
    })
}

/// Makes the call once more, with what it took whole if it was out of memory, and else with all that it is given.
fn run_next(
    alloc: Global,
    call: Call<'_>,
    given: &mut Given,
    first: Verdict,
) -> Result<Run, Problem> {
    if first == Verdict::Memory && beginnings(call.word).is_empty() {
        given.refresh(alloc)?;
        return run_again(alloc, call, given);
    }
    let mut other = Given::new(alloc)?;
    let run = run_again(alloc, call, &mut other);
    drop(other);
    run
}

/// Makes the call with what it is given after that many boxes, and then once more.
fn seen(alloc: Global, call: Call<'_>, given: &mut Given, boxes: usize) -> Result<Seen, Problem> {
    let as_before = given.shown(alloc)?;
    let first = run(alloc, call, given, as_before.as_str(), boxes);
    drop(as_before);
    let first = first?;
    let next = run_next(alloc, call, given, first.verdict);
    Seen::of(Ok(first), next)
}

/// Makes the call of a group after that many boxes, and then once more.
pub fn tried(alloc: Global, group: &str, word: &str, boxes: usize) -> Result<Seen, Problem> {
    if group == "scopes" {
        return scopes::tried(alloc, word, boxes);
    }
    if group == "filters" {
        return filters::tried(alloc, word, boxes);
    }
    let wanted = wanted(group, word);
    if wanted.is_empty() {
        return Err(Problem::Case);
    }
    let call = Call {
        group,
        word,
        wanted,
    };
    let mut given = Given::new(alloc)?;
    let seen = seen(alloc, call, &mut given, boxes);
    drop(given);
    seen
}
