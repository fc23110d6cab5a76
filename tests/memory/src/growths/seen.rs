//! The outcome of a call in which one allocation may fail.
use crate::problem::Problem;
use std::fmt;

/// What one result of a call is.
#[derive(Clone, Copy, Debug, PartialEq, Eq)]
pub enum Verdict {
    /// Out of memory, with everything in a state that is then allowed.
    Memory,
    /// Exactly the row's result.
    Whole,
    /// Something else.
    Other,
}

impl Verdict {
    /// Returns what two results are together.
    pub fn and(self, other: Verdict) -> Verdict {
        match (self, other) {
            (Verdict::Other, _) | (_, Verdict::Other) => Verdict::Other,
            (Verdict::Memory, _) | (_, Verdict::Memory) => Verdict::Memory,
            (Verdict::Whole, Verdict::Whole) => Verdict::Whole,
        }
    }

    /// Returns the same, or something else if a condition for it is not true.
    pub fn only_if(self, holds: bool) -> Verdict {
        if holds { self } else { Verdict::Other }
    }
}

/// The result of one call, and how many boxes were allocated before one failed, before the call and after it, or `None`
/// if no box failed there.
#[derive(Clone, Copy)]
pub struct Run {
    pub before: Option<usize>,
    pub after: Option<usize>,
    pub verdict: Verdict,
}

/// The results of a call that is made twice, and where the one failure was: how many boxes were allocated before one
/// failed, before the first call and after it, or `None` if no box failed there.
#[derive(Clone, Copy)]
pub struct Seen {
    pub before: Option<usize>,
    pub after: Option<usize>,
    pub first: Verdict,
    pub next: Verdict,
}

impl Seen {
    /// Returns what two runs of a call came to, or the first problem.
    pub fn of(first: Result<Run, Problem>, next: Result<Run, Problem>) -> Result<Seen, Problem> {
        let (first, next) = (first?, next?);
        Ok(Seen {
            before: first.before,
            after: first.after,
            first: first.verdict,
            next: next.verdict,
        })
    }

    /// Returns `true` if the call returned what it may: out of memory only if an allocation in it failed, and otherwise
    /// the row's result, which the next call always returns.
    fn holds(&self) -> bool {
        let is_cause = self.before.is_none() && self.after.is_none();
        let first = match self.first {
            Verdict::Memory => is_cause,
            Verdict::Whole => true,
            Verdict::Other => false,
        };
        first && self.next == Verdict::Whole
    }
}

impl fmt::Display for Seen {
    fn fmt<W: fmt::Write>(&self, f: &mut fmt::Formatter<W>) -> fmt::Result {
        if !self.holds() {
            write!(f, "WRONG: {:?}, and then {:?}; ", self.first, self.next)?;
        }
        match (self.before, self.after) {
            (Some(count), _) => write!(f, "refused in front of it, after {count} boxes"),
            (None, Some(count)) => write!(f, "refused after it, after {count} boxes"),
            (None, None) if self.first == Verdict::Memory => write!(
                f,
                "refused in it, out of memory"
            ),
            (None, None) => write!(f, "refused in it or never, whole answer"),
        }
    }
}
