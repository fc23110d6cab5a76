//! Calls of scopes.

use crate::calls::given::{object, runtime, text};
use crate::growths::{MOST, Seen, Verdict, taken};
use crate::problem::{Problem, both};
use liquid_core::model::{ScalarCow, Value};
use liquid_core::runtime::{ChainedScopes, FlatScopes, Frame, Looks, Runtime, Scopes};
use liquid_core::{Error, ValueCow};
use std::alloc::{AllocError, Global};
use std::collections::BTreeSet;

/// Classifies a result: `Whole` needs the first condition, and `Memory` the second.
fn verdict_of<T: Drop>(answer: Result<T, Error>, is_made: bool, is_unchanged: bool) -> Verdict {
    match answer {
        Ok(_) => Verdict::Whole.only_if(is_made),
        Err(Error::Memory) => Verdict::Memory.only_if(is_unchanged),
        Err(_) => Verdict::Other,
    }
}

/// Returns a frame of names, of which `own` is one.
fn frame(alloc: Global, is_isolated: bool) -> Result<Frame, Problem> {
    let (mut names, own) = both(object(alloc), text(alloc, "own"))?;
    match names.insert(own, Value::scalar(1i64)) {
        Ok(_) if is_isolated => Ok(Frame::Isolated(names, None)),
        Ok(_) => Ok(Frame::Stack(names, None)),
        Err(error) => {
            drop(names);
            Err(Problem::from(error))
        }
    }
}

/// Begins a frame, and ends it again.
fn pushed<S: Scopes>(scopes: &mut S, frame: Frame) -> Verdict {
    match scopes.push(frame) {
        Ok(()) => {
            let is_begun = scopes.frames() == 1 && scopes.try_get_name("own").is_some();
            scopes.pop();
            Verdict::Whole.only_if(is_begun)
        }
        Err(error) => {
            let is_unchanged = scopes.frames() == 0 && scopes.try_get_name("own").is_none();
            verdict_of::<()>(Err(error), false, is_unchanged)
        }
    }
}

/// Begins a frame after that many boxes, and then another.
fn push<S>(alloc: Global, base: S::Base, is_isolated: bool, boxes: usize) -> Result<Seen, Problem>
where
    S: Scopes<Register = (), Store = ()>,
    S::Base: Drop,
{
    let (one, other) = both(frame(alloc, is_isolated), frame(alloc, is_isolated))?;
    let mut scopes = S::new(alloc, base);
    let before = taken(alloc, boxes);
    let first = pushed(&mut scopes, one);
    let after = taken(alloc, MOST);
    let next = pushed(&mut scopes, other);
    let base = scopes.into_base();
    drop(base);
    Ok(Seen {
        before,
        after,
        first,
        next,
    })
}

/// Sets `n`, which has no value yet.
fn set<S: Scopes>(scopes: &mut S, word: &str, name: String) -> Verdict {
    let value = Value::scalar(2i64);
    let answer = match word {
        "global" => scopes.set_global(name, value),
        _ => scopes.set_index(name, value),
    };
    let is_set = scopes.get_index("n").is_some() || scopes.try_get_name("n").is_some();
    verdict_of(answer, is_set, !is_set)
}

/// Sets a name after that many boxes, and then once more.
fn sets<S>(alloc: Global, base: S::Base, word: &str, boxes: usize) -> Result<Seen, Problem>
where
    S: Scopes<Register = (), Store = ()>,
    S::Base: Drop,
{
    let (one, other) = both(text(alloc, "n"), text(alloc, "n"))?;
    let mut scopes = S::new(alloc, base);
    let before = taken(alloc, boxes);
    let first = set(&mut scopes, word, one);
    let after = taken(alloc, MOST);
    let next = set(&mut scopes, word, other);
    let base = scopes.into_base();
    drop(base);
    Ok(Seen {
        before,
        after,
        first,
        next,
    })
}

/// Classifies the names that are seen over the globals.
fn roots_verdict(roots: Result<BTreeSet<String>, AllocError>) -> Verdict {
    match roots {
        Ok(names) => {
            let is_whole = names.len() == 2 && names.contains("a") && names.contains("i");
            drop(names);
            Verdict::Whole.only_if(is_whole)
        }
        Err(_) => Verdict::Memory,
    }
}

/// Requests the names after that many boxes, and then once more.
fn roots<S>(alloc: Global, base: S::Base, boxes: usize) -> Result<Seen, Problem>
where
    S: Scopes<Register = (), Store = ()>,
    S::Base: Drop,
{
    let scopes = S::new(alloc, base);
    let before = taken(alloc, boxes);
    let answer = scopes.roots(alloc);
    let after = taken(alloc, MOST);
    let first = roots_verdict(answer);
    let next = roots_verdict(scopes.roots(alloc));
    let base = scopes.into_base();
    drop(base);
    Ok(Seen {
        before,
        after,
        first,
        next,
    })
}

/// Classifies the size of the only member of `a`.
fn size_verdict(found: Result<Option<ValueCow<'_>>, AllocError>) -> Verdict {
    match found {
        Ok(Some(value)) => {
            let one = Value::scalar(1i64);
            let is_one = *value.as_view() == one;
            drop(one);
            drop(value);
            Verdict::Whole.only_if(is_one)
        }
        Ok(None) => Verdict::Other,
        Err(_) => Verdict::Memory,
    }
}

/// Looks up a path in flat scopes after that many boxes, and then once more.
fn seek<R>(alloc: Global, base: R, boxes: usize) -> Result<Seen, Problem>
where
    R: Runtime<Register = (), Store = ()> + Drop,
{
    let path = [ScalarCow::from("a"), ScalarCow::from("size")];
    let mut looks = Looks::new();
    let scopes: FlatScopes<R> = FlatScopes::new(alloc, base);
    let before = taken(alloc, boxes);
    let found = scopes.seek(alloc, &path, &mut looks);
    let after = taken(alloc, MOST);
    let first = size_verdict(found);
    let mut looks = Looks::new();
    let next = size_verdict(scopes.seek(alloc, &path, &mut looks));
    let base = scopes.into_base();
    drop(base);
    Ok(Seen {
        before,
        after,
        first,
        next,
    })
}

/// Makes a call of scopes of any form after that many boxes, and then once more.
fn of_form<S>(alloc: Global, base: S::Base, call: &str, boxes: usize) -> Result<Seen, Problem>
where
    S: Scopes<Register = (), Store = ()>,
    S::Base: Drop,
{
    match call {
        "push" => push::<S>(alloc, base, false, boxes),
        "push_isolated" => push::<S>(alloc, base, true, boxes),
        "set_global" => sets::<S>(alloc, base, "global", boxes),
        "set_index" => sets::<S>(alloc, base, "index", boxes),
        "roots" => roots::<S>(alloc, base, boxes),
        _ => Err(Problem::Case),
    }
}

/// Makes a call of scopes over a runtime after that many boxes, and then once more.
fn over<R>(alloc: Global, base: R, word: &str, boxes: usize) -> Result<Seen, Problem>
where
    R: Runtime<Register = (), Store = ()> + Drop,
{
    match word.split_once("_") {
        Some(("chained", call)) => of_form::<ChainedScopes<R>>(alloc, base, call, boxes),
        Some(("flat", "seek")) => seek(alloc, base, boxes),
        Some(("flat", call)) => of_form::<FlatScopes<R>>(alloc, base, call, boxes),
        _ => Err(Problem::Case),
    }
}

/// Makes a call of scopes after that many boxes, and then once more.
pub fn tried(alloc: Global, word: &str, boxes: usize) -> Result<Seen, Problem> {
    over(alloc, runtime(alloc)?, word, boxes)
}
