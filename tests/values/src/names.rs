//! The names of templates: paths, runtimes, and scopes over both forms.
mod calls;
mod depth;
mod framed;
mod frames;
mod lenient;
mod loops;
mod names;
mod paths;
mod popped;
mod runtimes;
mod values;
