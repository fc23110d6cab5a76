//! Runtimes without a store.
use liquid_core::model::Object;
use liquid_core::runtime::{BuiltRuntime, RuntimeBuilder};
use std::alloc::Global;

pub type Built = BuiltRuntime<(), ()>;

/// Returns a runtime of these globals.
pub fn built(alloc: Global, globals: Object) -> Built {
    RuntimeBuilder::new(alloc).set_globals(globals).build()
}
