//! The standard filters, each called as a function of values, and what they read of a value.
mod answers;
mod dates;
mod lists;
mod long_inputs;
mod numbers;
mod order;
mod texts;
mod values;
