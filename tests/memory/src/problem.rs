//! Why a case has no outcome.
use liquid_core::{DateError, Error};
use std::alloc::{AllocError, AllocFailed};
use std::io;

/// Why a case has no outcome. A problem holds nothing, so a function that returns one drops nothing for it.
#[derive(Debug, Clone, Copy, PartialEq, Eq, thiserror::Error)]
pub enum Problem {
    /// The line does not name a row and a call.
    #[error("no case")]
    Case,
    /// The row lacks something that the call needs.
    #[error("no such row")]
    Row,
    /// The call can't be made with this row, whose text has an error when it is parsed.
    #[error("no tree")]
    NoTree,
    /// The set-up had an error, or was out of memory.
    #[error("set-up refused")]
    Refused,
    /// An input or an output failed.
    #[error("a stream failed")]
    Failed,
}

impl From<Error> for Problem {
    fn from(error: Error) -> Problem {
        drop(error);
        Problem::Refused
    }
}

impl From<DateError> for Problem {
    fn from(error: DateError) -> Problem {
        drop(error);
        Problem::Refused
    }
}

impl From<AllocError> for Problem {
    fn from(_: AllocError) -> Problem {
        Problem::Refused
    }
}

impl<T: Drop> From<AllocFailed<T>> for Problem {
    fn from(failed: AllocFailed<T>) -> Problem {
        drop(failed);
        Problem::Refused
    }
}

impl From<serde_json::Error> for Problem {
    fn from(error: serde_json::Error) -> Problem {
        drop(error);
        Problem::Refused
    }
}

impl From<io::Error> for Problem {
    fn from(error: io::Error) -> Problem {
        drop(error);
        Problem::Failed
    }
}

/// Returns both results, or the first problem.
///
/// A function that calls it holds no value where another call may fail. A check reads what goes out of scope there part by
/// part, once for each such place, and reads a call of `drop` only once.
pub fn both<A: Drop, B: Drop>(
    first: Result<A, Problem>,
    second: Result<B, Problem>,
) -> Result<(A, B), Problem> {
    let first = match first {
        Ok(first) => first,
        Err(problem) => {
            drop(second);
            return Err(problem);
        }
    };
    match second {
        Ok(second) => Ok((first, second)),
        Err(problem) => {
            drop(first);
            Err(problem)
        }
    }
}
