//! What is shared by calls in which one allocation fails.
//!
//! If the Nth allocation of a process fails, the number of boxes taken before a call decides which allocation of the
//! call that is, and boxes taken after it show whether the failure was in the call.
mod boxes;
mod seen;

pub use boxes::{MOST, taken};
pub use seen::{Run, Seen, Verdict};
