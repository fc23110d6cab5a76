//! Boxes that are taken before and after a call.
use std::alloc::Global;

/// The number of boxes that are taken after the call. One of them fails if no allocation of the call did.
pub const MOST: usize = 1000;

/// Takes and drops that many boxes. Returns how many were allocated before one failed, or `None` if none did.
pub fn taken(alloc: Global, count: usize) -> Option<usize> {
    for had in 0..count {
        match Box::new(alloc, had) {
            Ok(number) => drop(number),
            Err(_) => return Some(had),
        }
    }
    None
}
