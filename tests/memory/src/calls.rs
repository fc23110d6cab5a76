//! Calls of values, dates, paths, JSON, errors, registries, expressions, runtimes, scopes and standard filters.
//!
//! After a call that is out of memory, what it would change is as before, except for what an `extend` took, and the
//! next call returns its result.
mod answers;
mod dates;
mod errors;
mod filters;
mod given;
mod json_calls;
mod paths;
mod plugins;
mod runtimes;
mod scopes;
mod texts;
mod trials;
mod values;
mod wanted;

pub use trials::tried;
