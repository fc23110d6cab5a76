//! The frame of a loop's turn, over both forms of scopes: the item, and what `forloop` says.
use crate::names::framed::{Body, framed, holds_over_both, shown, shows};
use liquid_runtime::{Counts, Frame, Listed, LoopFrame, LoopItem, Scopes, Seen};
use liquid_scalar::ScalarCow;
use liquid_value::Value;
use rows::{holds, is_text};
use std::alloc::{AllocError, Global};
use std::collections::BTreeSet;
use std::rc::Rc;
use std::test::Fail;

/// What `forloop` says about the second of three items, and the text of a member that it does not have.
const MEMBERS: [(&str, &str); 9] = [
    ("first", "false"),
    ("index", "2"),
    ("index0", "1"),
    ("last", "false"),
    ("length", "3"),
    ("rindex", "2"),
    ("rindex0", "1"),
    ("size", "7"),
    ("parentloop", "none"),
];

/// Returns the frame of the turn of a number in a loop with this name.
fn looped(alloc: Global, name: &str, number: i64, place: u64, size: u64) -> Option<Frame> {
    let item = LoopItem::Own(Value::scalar(number));
    let counts = Counts { place, size };
    let frame = LoopFrame::of_turn(alloc, None, name, item, counts).ok()?;
    Some(Frame::Loop(frame))
}

/// Returns `true` if a member of `forloop` has this text.
fn says<S: Scopes>(alloc: Global, scopes: &S, member: &'static str, text: &str) -> bool {
    let path = [ScalarCow::from("forloop"), ScalarCow::from(member)];
    match scopes.try_get(alloc, &path) {
        Ok(found) => is_text(shown(alloc, found), text),
        Err(_) => false,
    }
}

/// Returns `true` if `forloop` says all that it should.
fn says_all<S: Scopes>(alloc: Global, scopes: &S) -> bool {
    for (member, text) in &MEMBERS {
        if !says(alloc, scopes, *member, *text) {
            return false;
        }
    }
    true
}

/// The second turn of a loop over three numbers, and inside it the only turn of another loop.
struct Loops;

impl Body for Loops {
    fn holds<S: Scopes>(&self, alloc: Global, scopes: &mut S) -> bool {
        framed(alloc, scopes, looped(alloc, "i", 5, 1, 3), &Outer)
    }
}

struct Outer;

impl Body for Outer {
    fn holds<S: Scopes>(&self, alloc: Global, scopes: &mut S) -> bool {
        shows(alloc, scopes, "i", "5")
            && shows(alloc, scopes, "a", "7")
            && says_all(alloc, scopes)
            && framed(alloc, scopes, looped(alloc, "j", 6, 0, 1), &Inner)
            && says_all(alloc, scopes)
            && shows(alloc, scopes, "j", "none")
    }
}

struct Inner;

impl Body for Inner {
    fn holds<S: Scopes>(&self, alloc: Global, scopes: &mut S) -> bool {
        shows(alloc, scopes, "i", "5")
            && shows(alloc, scopes, "j", "6")
            && says(alloc, scopes, "last", "true")
            && says(alloc, scopes, "length", "1")
    }
}

/// A loop whose items are named `forloop`.
struct OwnName;

impl Body for OwnName {
    fn holds<S: Scopes>(&self, alloc: Global, scopes: &mut S) -> bool {
        framed(alloc, scopes, looped(alloc, "forloop", 5, 1, 3), &Hidden)
    }
}

struct Hidden;

impl Body for Hidden {
    fn holds<S: Scopes>(&self, alloc: Global, scopes: &mut S) -> bool {
        shows(alloc, scopes, "forloop", "5") && says(alloc, scopes, "index", "none")
    }
}

/// Returns `true` if an item of an array is lent and copied, and there is none after the last.
fn lends_items(alloc: Global) -> Result<bool, AllocError> {
    let mut items = Vec::new(alloc);
    items.push(Value::scalar(5i64))?;
    items.push(Value::scalar(6i64))?;
    let array = Rc::new(alloc, items)?;
    let Some(listed) = Listed::at(&array, 1)? else {
        return Ok(false);
    };
    let item = LoopItem::Listed(listed);
    let copy = LoopItem::to_value(&item)?;
    Ok(Listed::at(&array, 2)?.is_none() && copy == Value::scalar(6i64) && *item.get() == copy)
}

/// Returns `true` if `forloop` is the same object however it is made.
fn makes_forloop(alloc: Global) -> Result<bool, AllocError> {
    let counts = Counts { place: 1, size: 3 };
    let object = Counts::to_object(&counts, alloc)?;
    let value = Counts::to_value(&counts, alloc)?;
    let seen = Seen::Loop(counts);
    let cow = Seen::to_cow(&seen, alloc)?;
    let is_there = match object.get("index") {
        Some(index) => *index == Value::scalar(2i64),
        None => false,
    };
    Ok(is_there && object.len() == 7 && *cow.as_view() == value)
}

/// Returns `true` if the names of a loop's frame are its own and `forloop`.
fn names_both(alloc: Global) -> Result<bool, AllocError> {
    let item = LoopItem::Own(Value::scalar(5i64));
    let counts = Counts { place: 0, size: 1 };
    let frame = LoopFrame::of_turn(alloc, None, "i", item, counts)?;
    let names = LoopFrame::add_names(&*frame, alloc, BTreeSet::new(alloc))?;
    Ok(names.len() == 2 && names.contains("i") && names.contains("forloop"))
}

#[test]
fn loops_lend_their_items(rt: HostRuntime) -> Result<(), Fail> {
    holds(
        lends_items(rt.alloc()).unwrap_or(false),
        "an item of an array is lent",
    )
}

#[test]
fn loops_make_what_is_asked_for(rt: HostRuntime) -> Result<(), Fail> {
    let alloc = rt.alloc();
    holds(
        makes_forloop(alloc).unwrap_or(false) && names_both(alloc).unwrap_or(false),
        "a loop makes forloop and its names",
    )
}

#[test]
fn a_loops_frame_has_the_item_and_forloop(rt: HostRuntime) -> Result<(), Fail> {
    holds(
        holds_over_both(rt.alloc(), &[("a", 7)], false, &Loops),
        "scopes of both forms show the names of a loop",
    )
}

#[test]
fn an_item_hides_forloop(rt: HostRuntime) -> Result<(), Fail> {
    holds(
        holds_over_both(rt.alloc(), &[], false, &OwnName),
        "the item's name wins",
    )
}
